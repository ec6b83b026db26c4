//! What the system has and `std` has not: private mappings, hints, a flush that is made once, and
//! many writes at once. All unsafe code of the layer is here.

use super::drive::short_write;
use super::Run;
use std::ffi::{c_char, c_int, c_long, c_uint, c_ulong, c_void};
use std::fs::File;
use std::io;
use std::os::fd::AsRawFd;
use std::ptr;
use std::slice;
use std::vec::Vec;

// Numbers of x86-64 Linux.
const PROT_READ_WRITE: c_int = 3;
const MAP_PRIVATE: c_int = 2;
const MADV_RANDOM: c_int = 1;
const POSIX_FADV_DONTNEED: c_int = 4;
const AT_EMPTY_PATH: c_int = 0x1000;
const STATX_DIOALIGN: c_uint = 0x2000;
const SYS_IO_SETUP: c_long = 206;
const SYS_IO_DESTROY: c_long = 207;
const SYS_IO_GETEVENTS: c_long = 208;
const SYS_IO_SUBMIT: c_long = 209;
const IOCB_CMD_PWRITE: u16 = 1;

/// Bytes of a header and the largest area.
const LOOKED_AT: i64 = 513 * 512;

extern "C" {
    fn mmap(
        at: *mut c_void,
        length: usize,
        protection: c_int,
        flags: c_int,
        file: c_int,
        from: i64,
    ) -> *mut c_void;
    fn munmap(at: *mut c_void, length: usize) -> c_int;
    fn madvise(at: *mut c_void, length: usize, advice: c_int) -> c_int;
    fn posix_fadvise(file: c_int, from: i64, length: i64, advice: c_int) -> c_int;
    fn fdatasync(file: c_int) -> c_int;
    fn fstatfs(file: c_int, told: *mut Statfs) -> c_int;
    fn statx(
        folder: c_int,
        path: *const c_char,
        flags: c_int,
        asked: c_uint,
        told: *mut Statx,
    ) -> c_int;
    fn syscall(number: c_long, ...) -> c_long;
}

/// Flushes what was written. One that a signal interrupts has failed, where `std` would make it
/// again: no flush is made a second time.
pub fn flush(file: &File) -> io::Result<()> {
    // SAFETY: a number alone is handed over.
    match unsafe { fdatasync(file.as_raw_fd()) } {
        0 => Ok(()),
        _ => Err(io::Error::last_os_error()),
    }
}

/// What fstatfs tells: the kind of file system, and 14 words that are not read.
#[repr(C)]
struct Statfs {
    kind: i64,
    rest: [u64; 14],
}

/// The number of the file system that a file is on.
pub fn file_system(file: &File) -> io::Result<i64> {
    let mut told = Statfs {
        kind: 0,
        rest: [0; 14],
    };
    // SAFETY: `told` has the length and alignment of the system's struct.
    match unsafe { fstatfs(file.as_raw_fd(), &mut told) } {
        0 => Ok(told.kind),
        _ => Err(io::Error::last_os_error()),
    }
}

/// What statx tells, of which two numbers are read: what it has told of what was asked, and the
/// length that writes with O_DIRECT are made of.
#[repr(C)]
struct Statx {
    known: u32,
    before: [u32; 38],
    direct: u32,
    rest: [u32; 24],
}

/// The least length of a write past the page cache, 0 if the file takes none; none if the system
/// does not tell.
pub fn direct_length(file: &File) -> Option<u32> {
    let mut told = Statx {
        known: 0,
        before: [0; 38],
        direct: 0,
        rest: [0; 24],
    };
    // SAFETY: an empty path that ends, and a struct with the length and alignment of the system's.
    let answer = unsafe {
        let path = c"".as_ptr();
        statx(
            file.as_raw_fd(),
            path,
            AT_EMPTY_PATH,
            STATX_DIOALIGN,
            &mut told,
        )
    };
    (answer == 0 && told.known & STATX_DIOALIGN != 0).then_some(told.direct)
}

/// A private mapping of a file: what is written to it stays in this process.
pub struct Mapping {
    at: *mut u8,
    length: usize,
}

impl Mapping {
    /// The first `length` bytes of the file, above 0. The file must be as long and stay so, and
    /// nobody else may write it: the caller holds its lock.
    pub fn new(file: &File, length: usize) -> io::Result<Mapping> {
        // SAFETY: numbers alone are handed over. What the system has cached of header and area is
        // given up, as far as it is not still to be written: a start is to look at the device.
        unsafe { posix_fadvise(file.as_raw_fd(), 0, LOOKED_AT, POSIX_FADV_DONTNEED) };
        // SAFETY: a new mapping, at a place that the system chooses.
        let at = unsafe {
            mmap(
                ptr::null_mut(),
                length,
                PROT_READ_WRITE,
                MAP_PRIVATE,
                file.as_raw_fd(),
                0,
            )
        };
        if at as isize == -1 {
            return Err(io::Error::last_os_error());
        }
        // SAFETY: a hint about the mapping just made: a page that is touched tells nothing of its
        // neighbours.
        unsafe { madvise(at, length, MADV_RANDOM) };
        Ok(Mapping {
            at: at.cast(),
            length,
        })
    }

    pub fn bytes(&self) -> &[u8] {
        // SAFETY: mapped until drop, readable, and changed only through `bytes_mut`.
        unsafe { slice::from_raw_parts(self.at, self.length) }
    }

    pub fn bytes_mut(&mut self) -> &mut [u8] {
        // SAFETY: mapped until drop, writable, and borrowed by this reference alone.
        unsafe { slice::from_raw_parts_mut(self.at, self.length) }
    }
}

impl Drop for Mapping {
    fn drop(&mut self) {
        // SAFETY: the mapping made by `new`, which nothing borrows any more.
        unsafe { munmap(self.at.cast(), self.length) };
    }
}

// SAFETY: the mapping belongs to the process, and Rust's rules for its bytes hold by `bytes` and
// `bytes_mut`.
unsafe impl Send for Mapping {}
// SAFETY: as for Send; a shared mapping is only read.
unsafe impl Sync for Mapping {}

/// A write that the system is asked for, as the kernel's `struct iocb`.
#[repr(C)]
struct Iocb {
    data: u64,
    key: u32,
    flags: u32,
    opcode: u16,
    priority: i16,
    file: u32,
    buffer: u64,
    length: u64,
    from: i64,
    reserved: u64,
    notify: u32,
    notify_file: u32,
}

/// What became of it, as the kernel's `struct io_event`.
#[repr(C)]
#[derive(Clone, Copy)]
struct IoEvent {
    data: u64,
    iocb: u64,
    answer: i64,
    second: i64,
}

/// Many writes in flight at once.
pub struct Aio(c_ulong);

impl Aio {
    /// Writes in flight at most.
    const DEPTH: usize = 128;

    pub fn new() -> io::Result<Aio> {
        let mut context: c_ulong = 0;
        // SAFETY: the system fills in the context.
        match unsafe { syscall(SYS_IO_SETUP, Aio::DEPTH as c_long, &mut context) } {
            0 => Ok(Aio(context)),
            _ => Err(io::Error::last_os_error()),
        }
    }

    /// Writes runs of the card and waits for all of them, so that none is in flight afterwards. Tells
    /// how many of the runs it has written: the system may take fewer than it is asked to.
    pub fn write(&mut self, file: &File, card: &[u8], runs: &[Run]) -> io::Result<usize> {
        let mut written = 0;
        for part in runs.chunks(Aio::DEPTH) {
            let taken = self.write_part(file, card, part)?;
            written += taken;
            if taken < part.len() {
                break;
            }
        }
        Ok(written)
    }

    fn write_part(&mut self, file: &File, card: &[u8], runs: &[Run]) -> io::Result<usize> {
        let asked: Vec<Iocb> = runs.iter().map(|run| iocb(file, card, *run)).collect();
        let taken = self.submit(&asked);
        let mut events = Vec::with_capacity(taken);
        self.wait(taken, &mut events)?;
        events.iter().try_for_each(outcome)?;
        Ok(taken)
    }

    /// Tells how many were taken, from the first on.
    fn submit(&mut self, asked: &[Iocb]) -> usize {
        let pointers: Vec<*const Iocb> = asked.iter().map(ptr::from_ref).collect();
        let mut taken = 0;
        while taken < pointers.len() {
            let rest = &pointers[taken..];
            // SAFETY: the pointers are to requests that live until they are waited for, and these
            // to bytes of the card, which is borrowed as long.
            let more = unsafe {
                let context = self.0;
                syscall(SYS_IO_SUBMIT, context, rest.len() as c_long, rest.as_ptr())
            };
            match usize::try_from(more) {
                Ok(more) if more > 0 => taken += more,
                _ => break,
            }
        }
        taken
    }

    /// Waits until as many as were taken are over. Should the system not tell, the context is given
    /// up, which waits for them too.
    fn wait(&mut self, taken: usize, events: &mut Vec<IoEvent>) -> io::Result<()> {
        const NONE: IoEvent = IoEvent {
            data: 0,
            iocb: 0,
            answer: 0,
            second: 0,
        };
        while events.len() < taken {
            let mut more = [NONE; Aio::DEPTH];
            let left = (taken - events.len()) as c_long;
            let no_limit = ptr::null::<c_void>();
            // SAFETY: there is room for as many events as are in flight.
            let told = unsafe {
                let into = more.as_mut_ptr();
                syscall(SYS_IO_GETEVENTS, self.0, left, left, into, no_limit)
            };
            match usize::try_from(told) {
                Ok(0) => return Err(self.give_up(io::ErrorKind::TimedOut.into())),
                Ok(told) => events.extend_from_slice(&more[..told]),
                Err(_) => {
                    let why = io::Error::last_os_error();
                    if why.kind() != io::ErrorKind::Interrupted {
                        return Err(self.give_up(why));
                    }
                }
            }
        }
        Ok(())
    }

    /// None is in flight afterwards, and none can be asked for.
    fn give_up(&mut self, why: io::Error) -> io::Error {
        self.destroy();
        why
    }

    fn destroy(&mut self) {
        // SAFETY: the context made by `new`, or 0, which is none. It is not used afterwards.
        unsafe { syscall(SYS_IO_DESTROY, self.0) };
        self.0 = 0;
    }
}

impl Drop for Aio {
    fn drop(&mut self) {
        self.destroy();
    }
}

fn iocb(file: &File, card: &[u8], run: Run) -> Iocb {
    let bytes = &card[run.bytes()];
    Iocb {
        data: bytes.len() as u64,
        key: 0,
        flags: 0,
        opcode: IOCB_CMD_PWRITE,
        priority: 0,
        file: file.as_raw_fd() as u32,
        buffer: bytes.as_ptr() as u64,
        length: bytes.len() as u64,
        from: run.at() as i64,
        reserved: 0,
        notify: 0,
        notify_file: 0,
    }
}

/// Done if all bytes, whose number the request carried, were written.
fn outcome(event: &IoEvent) -> io::Result<()> {
    if event.answer < 0 {
        return Err(io::Error::from_raw_os_error(-event.answer as i32));
    }
    if event.answer as u64 != event.data {
        return Err(short_write());
    }
    Ok(())
}
