//! The stack that each call takes, on a painted stack of its own: `include/lane.h` says that it is
//! less than 16 KiB. With `--nocapture` the figures are printed.

use lane::c::{
    lane_advance, lane_forecast, lane_format, lane_key, lane_page_out, lane_read, lane_rescind,
    lane_snapshot, lane_start, lane_version, lane_write, Record, Report,
};
use lane::{Refusal, BLOCK};
use std::arch::asm;
use std::collections::BTreeMap;
use std::ffi::c_void;
use std::iter::from_fn;
use std::mem::zeroed;

const PROMISED: usize = 16 * 1024;
const PAINT: u64 = 0x5AFE_57AC_C0DE_D1CE;

/// Words of the painted stack, twice what is promised.
const WORDS: usize = 2 * PROMISED / 8;

#[repr(align(16))]
struct Stack([u64; WORDS]);

struct Job<F, R> {
    call: Option<F>,
    answer: Option<R>,
}

extern "C" fn run<F: FnOnce() -> R, R>(job: *mut c_void) {
    // SAFETY: `measure` lends the job, and nothing else touches it meanwhile.
    let job = unsafe { &mut *job.cast::<Job<F, R>>() };
    job.answer = job.call.take().map(|call| call());
}

/// Makes a call on a fresh painted stack; its answer, and the bytes from the deepest word that was
/// written to the top, with the few that `run` takes.
fn measure<F: FnOnce() -> R, R>(call: F) -> (R, usize) {
    let mut stack = Box::new(Stack([PAINT; WORDS]));
    let mut job = Job {
        call: Some(call),
        answer: None,
    };
    // SAFETY: the top is aligned as a call asks, the stack lives until the call is back, and r12 is
    // kept by what is called. `run` is extern "C", so no panic leaves it.
    unsafe {
        asm!(
            "mov r12, rsp",
            "mov rsp, {top}",
            "call {run}",
            "mov rsp, r12",
            top = in(reg) stack.0.as_mut_ptr_range().end,
            run = in(reg) run::<F, R> as extern "C" fn(*mut c_void),
            in("rdi") &raw mut job,
            out("r12") _,
            clobber_abi("C"),
        );
    }
    let untouched = stack.0.iter().take_while(|word| **word == PAINT).count();
    assert_ne!(untouched, 0, "the stack is too short to measure on");
    (job.answer.expect("run"), 8 * (WORDS - untouched))
}

const AREA: usize = 512;
const FRAMES: usize = 64;
const PAGES: u32 = 510;
const POTS: usize = 5;
const BLOCKS: usize = 1 + AREA + POTS + PAGES as usize;
/// The kind of a frame that is brought home.
const M: u32 = 4;

/// A lane whose calls are all measured, and what each took at most.
struct Lane {
    record: Record,
    card: Vec<u8>,
    memory: Vec<u8>,
    oid: u32,
    deepest: BTreeMap<&'static str, usize>,
}

/// Makes a call with what the lane lends and the further arguments.
macro_rules! call {
    ($lane:expr, $call:ident $(, $argument:expr)*) => {{
        let lane: &mut Lane = $lane;
        let s = &raw mut lane.record;
        let (card, n) = (lane.card.as_mut_ptr(), lane.card.len());
        let (memory, m) = (lane.memory.as_mut_ptr(), lane.memory.len());
        // SAFETY: record, card, memory and any further slice are apart, and as long as is said.
        let (answer, bytes) = measure(|| unsafe { $call(s, card, n, memory, m $(, $argument)*) });
        lane.note(stringify!($call), bytes);
        answer
    }};
}

impl Lane {
    fn new() -> Lane {
        let mut lane = Lane {
            // SAFETY: a record is numbers throughout, and each may be 0.
            record: unsafe { zeroed() },
            card: vec![0; BLOCKS * BLOCK],
            memory: vec![0; FRAMES * BLOCK],
            oid: 0,
            deepest: BTreeMap::new(),
        };
        let (card, n, ranges) = (lane.card.as_mut_ptr(), lane.card.len(), [0, PAGES]);
        // SAFETY: two slices, with their lengths.
        let format = measure(|| unsafe { lane_format(card, n, AREA, ranges.as_ptr(), 2) });
        assert_eq!(format.0, 0);
        lane.note("lane_format", format.1);
        assert_eq!(call!(&mut lane, lane_start), 0);
        lane
    }

    fn note(&mut self, call: &'static str, bytes: usize) {
        let most = self.deepest.entry(call).or_default();
        *most = bytes.max(*most);
    }

    fn read(&mut self, oid: u32) {
        let mut page = [0; BLOCK];
        let buffer = page.as_mut_ptr();
        let count = call!(self, lane_key, oid).count;
        assert_eq!(call!(self, lane_read, oid, count, buffer, BLOCK), 0);
    }

    fn write(&mut self, oid: u32) -> u32 {
        let page = [7; BLOCK];
        let count = call!(self, lane_key, oid).count;
        self.paging_out(|lane| call!(lane, lane_write, oid, count, 0, page.as_ptr(), BLOCK))
    }

    fn rescind(&mut self, oid: u32) -> u32 {
        let count = call!(self, lane_key, oid).count;
        self.paging_out(|lane| call!(lane, lane_rescind, oid, count))
    }

    /// Makes a call again, after a page-out, while memory is full.
    fn paging_out(&mut self, call: impl Fn(&mut Lane) -> u32) -> u32 {
        loop {
            let refusal = call(self);
            if refusal != Refusal::MemoryFull.number() {
                return refusal;
            }
            self.page_out();
        }
    }

    fn page_out(&mut self) {
        assert_eq!(call!(self, lane_page_out).refusal, 0);
    }

    fn snapshot(&mut self) {
        assert_eq!(call!(self, lane_snapshot), 0);
    }

    /// An advance, with a forecast before it.
    fn advance(&mut self) -> Report {
        assert_eq!(call!(self, lane_forecast).refusal, 0);
        call!(self, lane_advance)
    }

    /// Writes so many pages one after the other, or up to a refusal.
    fn fill(&mut self, pages: usize) -> u32 {
        for _ in 0..pages {
            let refusal = self.write(self.oid);
            if refusal != 0 {
                return refusal;
            }
            self.oid = (self.oid + 1) % PAGES;
        }
        0
    }

    /// Advances until nothing is due, and counts the frames that were brought home.
    fn home(&mut self) -> usize {
        from_fn(|| Some(self.advance()))
            .take_while(|report| report.kind != 0)
            .filter(|report| report.kind == M)
            .count()
    }
}

/// One frame is committed, 251 are pending and 248 current; then the 251 are committed, and at last a
/// page that is empty.
#[test]
fn a_call_takes_less_stack_than_is_promised() {
    let half_taken = Refusal::GenerationFull.number();
    let all_taken = Refusal::AreaFull.number();
    let mut lane = Lane::new();
    lane.home();
    // Each page once, so that no later write changes a pot.
    for _ in 0..3 {
        assert_eq!(lane.fill(PAGES as usize), half_taken);
        lane.snapshot();
        lane.home();
    }
    assert_eq!(lane.fill(1), 0);
    lane.snapshot();
    assert_eq!(lane.home(), 1);

    assert_eq!(lane.fill(250), 0);
    assert_eq!(lane.rescind(lane.oid), 0);
    assert_eq!(lane.rescind((lane.oid + 102) % PAGES), half_taken);
    assert_eq!(lane.fill(1), half_taken);
    lane.snapshot();
    lane.oid = (lane.oid + 1) % PAGES;
    assert_eq!(lane.fill(247), 0);
    assert_eq!(lane.rescind(lane.oid), 0);
    assert_eq!(lane.fill(1), all_taken);
    (0..PAGES).for_each(|oid| lane.read(oid));

    assert_eq!(lane.home(), 251);
    assert_eq!(call!(&mut lane, lane_start), 0);
    assert_eq!(lane.home(), 251);

    // The page is passed over, and its pot goes home.
    assert_eq!(lane.write(lane.oid), 0);
    assert_eq!(lane.rescind(lane.oid), 0);
    lane.snapshot();
    assert_eq!(lane.home(), 1);

    // SAFETY: it is lent nothing.
    let version = measure(|| unsafe { lane_version() });
    lane.note("lane_version", version.1);
    println!("no call at all: {} bytes", measure(|| ()).1);
    for (call, bytes) in lane.deepest {
        println!("{call}: {bytes} bytes");
        assert!(bytes < PROMISED, "{call}");
    }
}
