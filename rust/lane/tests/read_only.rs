//! Key, read and forecast from a record that cannot be written: `&self`, and `const` in C, are true
//! of the machine code too. Whatever a call writes there ends the test by a signal.

use lane::{format, Key, Range, Refusal, Report, Store, BLOCK};
use std::ffi::{c_int, c_void};
use std::fs::File;
use std::os::fd::AsRawFd;
use std::{ptr, thread};

const AREA: usize = 24;
const FIRST: u32 = 100;
const PAGES: usize = 8;
const BLOCKS: usize = 1 + AREA + 1 + PAGES;

const PROT_READ: c_int = 1;
const PROT_WRITE: c_int = 2;
const MAP_PRIVATE: c_int = 2;
const MAP_ANONYMOUS: c_int = 32;

extern "C" {
    fn mmap(
        at: *mut c_void,
        length: usize,
        protection: c_int,
        flags: c_int,
        file: c_int,
        offset: i64,
    ) -> *mut c_void;
    fn mprotect(at: *mut c_void, length: usize, protection: c_int) -> c_int;
    fn read(file: c_int, bytes: *mut c_void, length: usize) -> isize;
}

/// All that key, read and forecast are lent, but the buffer.
struct Lane {
    store: Store,
    card: [u8; BLOCKS * BLOCK],
    memory: [u8; 4 * BLOCK],
}

/// What key and read must answer of a page.
#[derive(Clone, Copy)]
struct Page {
    count: u32,
    fill: u8,
}

impl Lane {
    fn new() -> Lane {
        let range = Range {
            first: FIRST,
            pages: PAGES as u32,
        };
        let mut card = [0; BLOCKS * BLOCK];
        let memory = [0; 4 * BLOCK];
        format(&mut card, AREA, &[range]).unwrap();
        let store = Store::start(&card, &memory).unwrap();
        Lane {
            store,
            card,
            memory,
        }
    }

    fn key(&self, oid: u32) -> Result<Key, Refusal> {
        self.store.key(&self.card, &self.memory, oid)
    }

    fn read(&self, key: Key, length: usize) -> Result<[u8; BLOCK], Refusal> {
        let mut buffer = [9; BLOCK];
        self.store
            .read(&self.card, &self.memory, key, &mut buffer[..length])
            .map(|()| buffer)
    }

    fn forecast(&self) -> Result<u32, Refusal> {
        self.store.forecast(&self.card, &self.memory)
    }

    fn answers(&self, pages: &[Page], left: u32) {
        assert_eq!(self.forecast(), Ok(left));
        let short = &self.memory[BLOCK..];
        let foretold = self.store.forecast(&self.card, short);
        assert_eq!(foretold, Err(Refusal::Memory));
        for (oid, page) in (FIRST..).zip(pages) {
            let key = self.key(oid).unwrap();
            assert_eq!(key.count, page.count);
            assert_eq!(self.read(key, BLOCK), Ok([page.fill; BLOCK]));
            assert_eq!(self.read(key, BLOCK - 1), Err(Refusal::Length));
            let count = key.count + 1;
            assert_eq!(self.read(Key { oid, count }, BLOCK), Err(Refusal::Count));
        }
        let outside = FIRST + PAGES as u32;
        assert_eq!(self.key(outside), Err(Refusal::Oid));
    }
}

/// A lane in a mapping of its own.
struct Mapped(*mut Lane);

impl Mapped {
    fn new(lane: Lane) -> Mapped {
        // SAFETY: a fresh mapping, aligned to a memory page and as long as a lane, which is put there.
        unsafe {
            let writable = PROT_READ | PROT_WRITE;
            let flags = MAP_PRIVATE | MAP_ANONYMOUS;
            let at = mmap(ptr::null_mut(), size_of::<Lane>(), writable, flags, -1, 0);
            assert_ne!(at as isize, -1);
            at.cast::<Lane>().write(lane);
            Mapped(at.cast())
        }
    }

    fn protect(&self, protection: c_int) {
        // SAFETY: the whole mapping, which no reference is into now.
        let done = unsafe { mprotect(self.0.cast(), size_of::<Lane>(), protection) };
        assert_eq!(done, 0);
    }

    fn change(&mut self) -> &mut Lane {
        // SAFETY: the mapping holds a lane, and can be written but during `answers`.
        unsafe { &mut *self.0 }
    }

    /// Key, read and forecast, on two threads beside each other, while nothing of the lane can be
    /// written.
    fn answers(&self, pages: &[Page], left: u32) {
        self.protect(PROT_READ);
        self.refuses_a_write();
        // SAFETY: the mapping holds a lane, and nothing changes it until it is unprotected.
        let lane = unsafe { &*self.0 };
        thread::scope(|threads| {
            for _ in 0..2 {
                threads.spawn(|| lane.answers(pages, left));
            }
        });
        self.protect(PROT_READ | PROT_WRITE);
    }

    /// The system refuses to put a byte there, and so would the processor, by a signal.
    fn refuses_a_write(&self) {
        let zeros = File::open("/dev/zero").unwrap();
        // SAFETY: one byte of the mapping, which no reference is into now.
        let got = unsafe { read(zeros.as_raw_fd(), self.0.cast(), 1) };
        assert_eq!(got, -1);
    }
}

/// A lane, what its pages hold and what is foretold, looked at after each change.
struct Day {
    lane: Mapped,
    pages: [Page; PAGES],
    left: u32,
}

impl Day {
    fn look(&self) {
        self.lane.answers(&self.pages, self.left);
    }

    fn write(&mut self, page: usize, fill: u8) {
        let oid = FIRST + page as u32;
        let count = self.pages[page].count;
        let lane = self.lane.change();
        let (card, memory) = (&lane.card, &mut lane.memory);
        let done = lane
            .store
            .write(card, memory, Key { oid, count }, 0, &[fill; BLOCK]);
        assert_eq!(done, Ok(()));
        self.pages[page].fill = fill;
        self.look();
    }

    fn rescind(&mut self, page: usize) {
        let oid = FIRST + page as u32;
        let count = self.pages[page].count;
        let lane = self.lane.change();
        let (card, memory) = (&lane.card, &mut lane.memory);
        let done = lane.store.rescind(card, memory, Key { oid, count });
        assert_eq!(done, Ok(()));
        self.pages[page] = Page {
            count: count + 1,
            fill: 0,
        };
        self.look();
    }

    fn page_out(&mut self) {
        let lane = self.lane.change();
        let done = lane.store.page_out(&mut lane.card, &lane.memory);
        assert!(matches!(done, Ok(Report::P(_))));
        self.look();
    }

    fn snapshot(&mut self) {
        let lane = self.lane.change();
        assert_eq!(lane.store.snapshot(&lane.card, &lane.memory), Ok(()));
        self.left = lane.forecast().unwrap();
        self.look();
    }

    /// Whether a write or a flush was due. It is one that was foretold, as long as one was.
    fn advance(&mut self) -> bool {
        let lane = self.lane.change();
        let done = lane.store.advance(&mut lane.card, &lane.memory);
        self.left = self.left.saturating_sub(1);
        self.look();
        match done {
            Ok(_) => true,
            Err(refusal) => {
                assert_eq!(refusal, Refusal::NothingDue);
                false
            }
        }
    }
}

/// Pages are read at home, committed, pending and current, waiting and written, and empty. The flush
/// after the start is foretold first.
#[test]
fn key_read_and_forecast_write_nothing_but_the_buffer() {
    let mut day = Day {
        lane: Mapped::new(Lane::new()),
        pages: [Page { count: 0, fill: 0 }; PAGES],
        left: 1,
    };
    for (page, fill) in [(0, 1), (1, 2), (2, 3)] {
        day.write(page, fill);
    }
    day.snapshot();
    while day.advance() {}
    day.write(1, 4);
    day.write(3, 5);
    day.page_out();
    day.rescind(2);
    day.write(1, 6);
    day.snapshot();
    day.write(1, 7);
    while day.advance() {}
    day.write(2, 8);
}
