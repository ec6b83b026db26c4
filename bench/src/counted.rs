//! Writes and flushes that the stores ask the system for, counted. The calls below stand before the
//! C library's of the same names, for this program and for every library that it is linked with, and
//! hand on what they are asked. All unsafe code of the count is here.

use crate::machine::bytes_written;
use std::arch::asm;
use std::ffi::{c_int, c_long, c_void};
use std::ptr;
use std::sync::atomic::{AtomicBool, AtomicU64, Ordering::Relaxed};

// Numbers of x86-64 Linux.
const SYS_WRITE: c_long = 1;
const SYS_PWRITE: c_long = 18;
const SYS_WRITEV: c_long = 20;
const SYS_MSYNC: c_long = 26;
const SYS_FCNTL: c_long = 72;
const SYS_FSYNC: c_long = 74;
const SYS_FDATASYNC: c_long = 75;
const SYS_IO_SUBMIT: c_long = 209;
const SYS_PWRITEV: c_long = 296;
const F_GETFL: c_long = 3;
/// O_SYNC has this bit too.
const O_DSYNC: c_long = 0o10000;
const MS_SYNC: c_long = 4;
const RWF_DSYNC_OR_SYNC: u32 = 2 | 4;
const IOCB_CMD_PWRITE: u16 = 1;
const LAST_ERROR: c_long = 4095;

extern "C" {
    fn __errno_location() -> *mut c_int;
}

/// The head of the kernel's `struct iocb`.
#[repr(C)]
struct Iocb {
    data: u64,
    key: u32,
    flags: u32,
    opcode: u16,
    priority: i16,
    file: u32,
    buffer: u64,
    length: u64,
}

/// What a piece of work asked the system for.
#[derive(Clone, Copy, Debug, Default, PartialEq)]
pub struct Counts {
    /// Syncs, and writes to a file that is open for synced writes.
    pub flushes: u64,
    /// System calls that write; one that hands over many writes is one.
    pub calls: u64,
    /// Writes in these calls, each of neighbouring bytes of a file.
    pub writes: u64,
    pub bytes: u64,
}

static COUNTING: AtomicBool = AtomicBool::new(false);
static FLUSHES: AtomicU64 = AtomicU64::new(0);
static CALLS: AtomicU64 = AtomicU64::new(0);
static WRITES: AtomicU64 = AtomicU64::new(0);
static BYTES: AtomicU64 = AtomicU64::new(0);
/// Those of the bytes that were handed over as requests, which the system's own count leaves out.
static REQUESTED: AtomicU64 = AtomicU64::new(0);

/// Counts what a piece of work asks for. The bytes must be as many as the system itself has counted,
/// else something has passed by.
pub fn during(work: impl FnOnce()) -> Counts {
    let all = [&FLUSHES, &CALLS, &WRITES, &BYTES, &REQUESTED];
    all.iter().for_each(|count| count.store(0, Relaxed));
    let before = bytes_written();
    COUNTING.store(true, Relaxed);
    work();
    COUNTING.store(false, Relaxed);
    let seen = bytes_written() - before;
    let [flushes, calls, writes, bytes, requested] = all.map(|count| count.load(Relaxed));
    assert_eq!(bytes, seen + requested, "bytes counted, and by the system");
    Counts {
        flushes,
        calls,
        writes,
        bytes,
    }
}

fn add(count: &AtomicU64, n: u64) {
    count.fetch_add(n, Relaxed);
}

/// The system call, with its answer as the kernel gives it.
///
/// # Safety
///
/// The arguments are what the call asks for.
unsafe fn ask(number: c_long, [a, b, c, d, e, f]: [c_long; 6]) -> c_long {
    let answer;
    // SAFETY: as the caller promises; the kernel changes rcx and r11 beside the answer.
    unsafe {
        asm!(
            "syscall",
            inlateout("rax") number => answer,
            in("rdi") a,
            in("rsi") b,
            in("rdx") c,
            in("r10") d,
            in("r8") e,
            in("r9") f,
            lateout("rcx") _,
            lateout("r11") _,
            options(nostack),
        );
    }
    answer
}

/// The system call, with its answer as the C library gives it. While something is counted, so is
/// this.
///
/// # Safety
///
/// The arguments are what the call asks for.
unsafe fn hand_on(number: c_long, arguments: [c_long; 6]) -> c_long {
    // SAFETY: as the caller promises.
    let answer = unsafe { ask(number, arguments) };
    if (-LAST_ERROR..0).contains(&answer) {
        // SAFETY: the C library has a place for every thread's number.
        unsafe { *__errno_location() = -answer as c_int };
        return -1;
    }
    if COUNTING.load(Relaxed) {
        count(number, arguments, answer);
    }
    answer
}

/// Counts a call that was done.
fn count(number: c_long, [first, second, third, ..]: [c_long; 6], answer: c_long) {
    match number {
        SYS_FSYNC | SYS_FDATASYNC => add(&FLUSHES, 1),
        SYS_MSYNC => add(&FLUSHES, u64::from(third & MS_SYNC != 0)),
        SYS_WRITE | SYS_PWRITE | SYS_WRITEV | SYS_PWRITEV => {
            add(&CALLS, 1);
            count_write(first, false, answer as u64);
        }
        SYS_IO_SUBMIT => {
            add(&CALLS, 1);
            count_requests(third, second.min(answer) as usize);
        }
        _ => {}
    }
}

fn count_write(file: c_long, synced: bool, bytes: u64) {
    // SAFETY: numbers alone.
    let flags = unsafe { ask(SYS_FCNTL, [file, F_GETFL, 0, 0, 0, 0]) };
    add(&FLUSHES, u64::from(synced || flags & O_DSYNC != 0));
    add(&WRITES, 1);
    add(&BYTES, bytes);
}

/// The first `taken` of the requests at an address, which the kernel has just read.
fn count_requests(address: c_long, taken: usize) {
    let at = address as *const *const Iocb;
    for i in 0..taken {
        // SAFETY: the kernel took as many requests from there, and their memory is the caller's
        // until they are over.
        let request = unsafe { ptr::read(*at.add(i)) };
        assert_eq!(request.opcode, IOCB_CMD_PWRITE, "a request to write");
        let synced = request.flags & RWF_DSYNC_OR_SYNC != 0;
        count_write(c_long::from(request.file), synced, request.length);
        add(&REQUESTED, request.length);
    }
}

// SAFETY of all below: the caller owes what the C library's function of the name asks for, and that
// is what the system call asks for.

#[no_mangle]
unsafe extern "C" fn fsync(file: c_int) -> c_int {
    // SAFETY: above.
    unsafe { hand_on(SYS_FSYNC, [file.into(), 0, 0, 0, 0, 0]) as c_int }
}

#[no_mangle]
unsafe extern "C" fn fdatasync(file: c_int) -> c_int {
    // SAFETY: above.
    unsafe { hand_on(SYS_FDATASYNC, [file.into(), 0, 0, 0, 0, 0]) as c_int }
}

#[no_mangle]
unsafe extern "C" fn msync(at: *mut c_void, length: usize, flags: c_int) -> c_int {
    let arguments = [at as c_long, length as c_long, flags.into(), 0, 0, 0];
    // SAFETY: above.
    unsafe { hand_on(SYS_MSYNC, arguments) as c_int }
}

#[no_mangle]
unsafe extern "C" fn write(file: c_int, bytes: *const c_void, length: usize) -> isize {
    let arguments = [file.into(), bytes as c_long, length as c_long, 0, 0, 0];
    // SAFETY: above.
    unsafe { hand_on(SYS_WRITE, arguments) as isize }
}

#[no_mangle]
unsafe extern "C" fn pwrite(file: c_int, bytes: *const c_void, length: usize, at: i64) -> isize {
    let arguments = [file.into(), bytes as c_long, length as c_long, at, 0, 0];
    // SAFETY: above.
    unsafe { hand_on(SYS_PWRITE, arguments) as isize }
}

#[no_mangle]
unsafe extern "C" fn pwrite64(file: c_int, bytes: *const c_void, length: usize, at: i64) -> isize {
    // SAFETY: above.
    unsafe { pwrite(file, bytes, length, at) }
}

#[no_mangle]
unsafe extern "C" fn writev(file: c_int, parts: *const c_void, n: c_int) -> isize {
    let arguments = [file.into(), parts as c_long, n.into(), 0, 0, 0];
    // SAFETY: above.
    unsafe { hand_on(SYS_WRITEV, arguments) as isize }
}

#[no_mangle]
unsafe extern "C" fn pwritev(file: c_int, parts: *const c_void, n: c_int, at: i64) -> isize {
    let arguments = [file.into(), parts as c_long, n.into(), at, 0, 0];
    // SAFETY: above.
    unsafe { hand_on(SYS_PWRITEV, arguments) as isize }
}

#[no_mangle]
unsafe extern "C" fn pwritev64(file: c_int, parts: *const c_void, n: c_int, at: i64) -> isize {
    // SAFETY: above.
    unsafe { pwritev(file, parts, n, at) }
}

/// As the C library's, which takes as many words as a call can have, given or not.
#[no_mangle]
unsafe extern "C" fn syscall(
    number: c_long,
    a: c_long,
    b: c_long,
    c: c_long,
    d: c_long,
    e: c_long,
    f: c_long,
) -> c_long {
    // SAFETY: above.
    unsafe { hand_on(number, [a, b, c, d, e, f]) }
}
