//! Where Rust and the layer in C meet: the calls of the layer, and the system's functions, which
//! its object code calls by names of this crate (`build.rs`). All unsafe code of the trials is
//! here.
//!
//! `open` and `syscall`, which take a varying number of arguments, are defined with a fixed one. On
//! x86-64 up to six integers and pointers come in the same registers either way, and those that
//! were not passed are not looked at.

use crate::layer::{self, Doing, Fault};
use crate::recorded::{Outcome, Shared};
use crate::system::{self, Completion, Named, Request, Status, Told, EIO, ENOSYS};
use lane::{c, Range, Report, BLOCK};
use std::alloc::{alloc, dealloc, Layout};
use std::ffi::{c_char, c_int, c_long, c_uint, c_void, CStr, CString};
use std::mem::offset_of;
use std::{ptr, slice};

/// A lane, whose form is the layer's.
#[repr(C)]
pub struct LaneFile {
    private: [u8; 0],
}

type Lane = *mut LaneFile;

/// How a lane is opened, as `lane_file_options`.
#[repr(C)]
pub struct Options {
    pub frames: usize,
    pub room: c_uint,
    pub promise: c_uint,
    pub unmapped: c_int,
    pub replace: c_int,
}

/// A drive of the program's own, as `lane_drive`. What may be null is.
#[repr(C)]
struct Drive {
    this: *mut c_void,
    length: unsafe extern "C" fn(*mut c_void) -> u64,
    read: unsafe extern "C" fn(*mut c_void, u64, *mut u8, usize) -> c_int,
    write: unsafe extern "C" fn(*mut c_void, u64, *const u8, usize) -> c_int,
    flush: unsafe extern "C" fn(*mut c_void) -> c_int,
    write_runs: *const c_void,
    map: *const c_void,
    unmap: *const c_void,
    close: unsafe extern "C" fn(*mut c_void),
}

type Create<P> =
    unsafe extern "C" fn(*mut Lane, P, usize, *const u32, usize, *const Options) -> c_int;
type Open<P> = unsafe extern "C" fn(*mut Lane, P, *const Options) -> c_int;
type Plain = unsafe extern "C" fn(Lane) -> c_int;

/// The calls of one build of the layer.
pub struct Calls {
    create: Create<*const c_char>,
    open: Open<*const c_char>,
    create_on: Create<*const Drive>,
    open_on: Open<*const Drive>,
    key: unsafe extern "C" fn(Lane, u32, *mut u32) -> c_int,
    read: unsafe extern "C" fn(Lane, u32, u32, *mut u8) -> c_int,
    write: unsafe extern "C" fn(Lane, u32, u32, usize, *const u8, usize) -> c_int,
    rescind: unsafe extern "C" fn(Lane, u32, u32) -> c_int,
    snapshot: Plain,
    finish: Plain,
    commit: Plain,
    advance: unsafe extern "C" fn(Lane, *mut c::Report) -> c_int,
    settle: Plain,
    forecast: unsafe extern "C" fn(Lane, *mut u32) -> c_int,
    close: unsafe extern "C" fn(Lane),
}

/// The calls of a build whose symbols begin so.
macro_rules! build {
    ($name:ident, $begin:literal) => {
        pub static $name: Calls = {
            extern "C" {
                #[link_name = concat!($begin, "lane_file_create")]
                fn create(
                    lane: *mut Lane,
                    path: *const c_char,
                    area: usize,
                    ranges: *const u32,
                    ranges_len: usize,
                    options: *const Options,
                ) -> c_int;
                #[link_name = concat!($begin, "lane_file_open")]
                fn open(lane: *mut Lane, path: *const c_char, options: *const Options) -> c_int;
                #[link_name = concat!($begin, "lane_file_create_on")]
                fn create_on(
                    lane: *mut Lane,
                    drive: *const Drive,
                    area: usize,
                    ranges: *const u32,
                    ranges_len: usize,
                    options: *const Options,
                ) -> c_int;
                #[link_name = concat!($begin, "lane_file_open_on")]
                fn open_on(lane: *mut Lane, drive: *const Drive, options: *const Options) -> c_int;
                #[link_name = concat!($begin, "lane_file_key")]
                fn key(lane: Lane, oid: u32, count: *mut u32) -> c_int;
                #[link_name = concat!($begin, "lane_file_read")]
                fn read(lane: Lane, oid: u32, count: u32, page: *mut u8) -> c_int;
                #[link_name = concat!($begin, "lane_file_write")]
                fn write(
                    lane: Lane,
                    oid: u32,
                    count: u32,
                    at: usize,
                    bytes: *const u8,
                    n: usize,
                ) -> c_int;
                #[link_name = concat!($begin, "lane_file_rescind")]
                fn rescind(lane: Lane, oid: u32, count: u32) -> c_int;
                #[link_name = concat!($begin, "lane_file_snapshot")]
                fn snapshot(lane: Lane) -> c_int;
                #[link_name = concat!($begin, "lane_file_finish")]
                fn finish(lane: Lane) -> c_int;
                #[link_name = concat!($begin, "lane_file_commit")]
                fn commit(lane: Lane) -> c_int;
                #[link_name = concat!($begin, "lane_file_advance")]
                fn advance(lane: Lane, report: *mut c::Report) -> c_int;
                #[link_name = concat!($begin, "lane_file_settle")]
                fn settle(lane: Lane) -> c_int;
                #[link_name = concat!($begin, "lane_file_forecast")]
                fn forecast(lane: Lane, advances: *mut u32) -> c_int;
                #[link_name = concat!($begin, "lane_file_close")]
                fn close(lane: Lane);
            }
            Calls {
                create,
                open,
                create_on,
                open_on,
                key,
                read,
                write,
                rescind,
                snapshot,
                finish,
                commit,
                advance,
                settle,
                forecast,
                close,
            }
        };
    };
}

include!(concat!(env!("OUT_DIR"), "/builds.rs"));

/// A lane that is open, and the path it was opened by. Dropped, it is closed.
pub struct Linked {
    calls: &'static Calls,
    lane: Lane,
    _named: Option<Named>,
}

/// What an answer of the layer says. When it answers nothing is under way.
fn done(answer: c_int) -> Result<(), Fault> {
    if system::with(|system| system.end_flights()) > 0 {
        return Err(Fault::Other("writes are under way".to_string()));
    }
    match answer {
        0 => Ok(()),
        1.. => Err(Fault::Refused(answer as u32)),
        -1 => Err(Fault::Stopped),
        -4 => Err(Fault::Length),
        -9 => Err(Fault::Drive(Doing::Read)),
        -10 => Err(Fault::Drive(Doing::Write)),
        -11 => Err(Fault::Drive(Doing::Flush)),
        _ => Err(Fault::Other(format!("answer {answer}"))),
    }
}

fn numbers(ranges: &[Range]) -> Vec<u32> {
    let pairs = ranges.iter().map(|range| [range.first, range.pages]);
    pairs.flatten().collect()
}

fn c_path(path: &str) -> CString {
    CString::new(path).expect("no zero in a path")
}

impl Linked {
    fn made(
        calls: &'static Calls,
        answer: c_int,
        lane: Lane,
        named: Option<Named>,
    ) -> Result<Linked, Fault> {
        done(answer)?;
        Ok(Linked {
            calls,
            lane,
            _named: named,
        })
    }

    /// A file that is newly made is known to its folder, and gone if the create is not done.
    pub fn create(
        calls: &'static Calls,
        named: Named,
        area: usize,
        ranges: &[Range],
        options: &Options,
    ) -> Result<Linked, Fault> {
        let (path, ranges) = (c_path(named.path()), numbers(ranges));
        let (mut lane, new) = (ptr::null_mut(), !named.exists());
        // SAFETY: a string that ends with a zero, as many numbers as said, and room for the lane.
        let answer = unsafe {
            let (numbers, length) = (ranges.as_ptr(), ranges.len());
            (calls.create)(&mut lane, path.as_ptr(), area, numbers, length, options)
        };
        if answer != 0 && new && named.exists() {
            return Err(Fault::Other(format!("{answer}, and the file is left")));
        }
        if answer == 0 && !named.is_safe() {
            return Err(Fault::Other("the folder is not synced".to_string()));
        }
        Linked::made(calls, answer, lane, Some(named))
    }

    pub fn open(calls: &'static Calls, named: Named, options: &Options) -> Result<Linked, Fault> {
        let path = c_path(named.path());
        let mut lane = ptr::null_mut();
        // SAFETY: a string that ends with a zero, and room for the lane.
        let answer = unsafe { (calls.open)(&mut lane, path.as_ptr(), options) };
        Linked::made(calls, answer, lane, Some(named))
    }

    pub fn create_on(
        calls: &'static Calls,
        record: &Shared,
        area: usize,
        ranges: &[Range],
        options: &Options,
    ) -> Result<Linked, Fault> {
        let (drive, ranges) = (own_drive(record), numbers(ranges));
        let mut lane = ptr::null_mut();
        // SAFETY: a drive that the layer closes, as many numbers as said, and room for the lane.
        let answer = unsafe {
            let (numbers, length) = (ranges.as_ptr(), ranges.len());
            (calls.create_on)(&mut lane, &drive, area, numbers, length, options)
        };
        Linked::made(calls, answer, lane, None)
    }

    pub fn open_on(
        calls: &'static Calls,
        record: &Shared,
        options: &Options,
    ) -> Result<Linked, Fault> {
        let drive = own_drive(record);
        let mut lane = ptr::null_mut();
        // SAFETY: a drive that the layer closes, and room for the lane.
        let answer = unsafe { (calls.open_on)(&mut lane, &drive, options) };
        Linked::made(calls, answer, lane, None)
    }

    /// A call of the lane alone.
    fn call(&mut self, call: Plain) -> Result<(), Fault> {
        // SAFETY: the lane is open until drop.
        done(unsafe { call(self.lane) })
    }
}

impl Drop for Linked {
    fn drop(&mut self) {
        // SAFETY: the lane is open, and not used afterwards.
        unsafe { (self.calls.close)(self.lane) };
    }
}

impl layer::Lane for Linked {
    fn key(&mut self, oid: u32) -> Result<u32, Fault> {
        let mut count = 0;
        // SAFETY: the lane is open, and there is room for a count.
        done(unsafe { (self.calls.key)(self.lane, oid, &mut count) })?;
        Ok(count)
    }

    fn read(&mut self, oid: u32, count: u32, page: &mut [u8; BLOCK]) -> Result<(), Fault> {
        // SAFETY: the lane is open, and there is room for a page.
        done(unsafe { (self.calls.read)(self.lane, oid, count, page.as_mut_ptr()) })
    }

    fn write(&mut self, oid: u32, count: u32, at: usize, bytes: &[u8]) -> Result<(), Fault> {
        let (from, n) = (bytes.as_ptr(), bytes.len());
        // SAFETY: the lane is open, and the bytes are as many as said.
        done(unsafe { (self.calls.write)(self.lane, oid, count, at, from, n) })
    }

    fn rescind(&mut self, oid: u32, count: u32) -> Result<(), Fault> {
        // SAFETY: the lane is open.
        done(unsafe { (self.calls.rescind)(self.lane, oid, count) })
    }

    fn snapshot(&mut self) -> Result<(), Fault> {
        self.call(self.calls.snapshot)
    }

    fn finish(&mut self) -> Result<(), Fault> {
        self.call(self.calls.finish)
    }

    fn commit(&mut self) -> Result<(), Fault> {
        self.call(self.calls.commit)
    }

    fn advance(&mut self) -> Result<Option<Report>, Fault> {
        let mut report = c::Report {
            kind: 0,
            refusal: 0,
            block: 0,
        };
        // SAFETY: the lane is open, and there is room for a report.
        let answer = done(unsafe { (self.calls.advance)(self.lane, &mut report) });
        let block = report.block;
        match (answer, report.kind) {
            (Err(Fault::Refused(20)), 0) => Ok(None),
            (Err(fault), _) => Err(fault),
            (Ok(()), 1) => Ok(Some(Report::P(block))),
            (Ok(()), 2) => Ok(Some(Report::D(block))),
            (Ok(()), 3) => Ok(Some(Report::T(block))),
            (Ok(()), 4) => Ok(Some(Report::M(block))),
            (Ok(()), 5) => Ok(Some(Report::H(block))),
            (Ok(()), 6) => Ok(Some(Report::F(block))),
            (Ok(()), kind) => Err(Fault::Other(format!("a report of kind {kind}"))),
        }
    }

    fn settle(&mut self) -> Result<(), Fault> {
        self.call(self.calls.settle)
    }

    /// Not done, it tells 0.
    fn forecast(&mut self) -> Result<u32, Fault> {
        let mut advances = u32::MAX;
        // SAFETY: the lane is open, and there is room for a number.
        let answer = done(unsafe { (self.calls.forecast)(self.lane, &mut advances) });
        match (answer, advances) {
            (Err(fault), 1..) => Err(Fault::Other(format!("{fault:?}, and tells {advances}"))),
            (answer, _) => answer.map(|()| advances),
        }
    }
}

/// The recorded drive as one of the program's own. The layer closes it in any case.
fn own_drive(record: &Shared) -> Drive {
    Drive {
        this: Box::into_raw(Box::new(record.clone())).cast(),
        length: own_length,
        read: own_read,
        write: own_write,
        flush: own_flush,
        write_runs: ptr::null(),
        map: ptr::null(),
        unmap: ptr::null(),
        close: own_close,
    }
}

/// The record behind a drive of `own_drive`.
unsafe fn own<'a>(this: *mut c_void) -> &'a Shared {
    // SAFETY: `own_drive` made it, and it is not closed yet.
    unsafe { &*this.cast::<Shared>() }
}

fn error(outcome: Outcome) -> c_int {
    match outcome {
        Outcome::Done => 0,
        Outcome::Failed(_) => EIO,
    }
}

unsafe extern "C" fn own_length(this: *mut c_void) -> u64 {
    // SAFETY: the layer hands over the drive's pointer.
    let record = unsafe { own(this) };
    record.borrow().bytes().len() as u64
}

unsafe extern "C" fn own_read(this: *mut c_void, at: u64, buffer: *mut u8, n: usize) -> c_int {
    // SAFETY: the layer hands over the drive's pointer, and a buffer of n bytes that it has filled
    // with zeros.
    let (record, buffer) = unsafe { (own(this), slice::from_raw_parts_mut(buffer, n)) };
    error(record.borrow_mut().read(at as usize, buffer))
}

unsafe extern "C" fn own_write(this: *mut c_void, at: u64, bytes: *const u8, n: usize) -> c_int {
    // SAFETY: the layer hands over the drive's pointer, and n bytes.
    let (record, bytes) = unsafe { (own(this), slice::from_raw_parts(bytes, n)) };
    error(record.borrow_mut().write(at as usize, bytes))
}

unsafe extern "C" fn own_flush(this: *mut c_void) -> c_int {
    // SAFETY: the layer hands over the drive's pointer.
    let record = unsafe { own(this) };
    error(record.borrow_mut().flush())
}

unsafe extern "C" fn own_close(this: *mut c_void) {
    // SAFETY: `own_drive` made it of a box, and this is its last call.
    drop(unsafe { Box::from_raw(this.cast::<Shared>()) });
}

extern "C" {
    fn __errno_location() -> *mut c_int;
}

/// As the system answers: -1 with errno for an error.
fn answered<T: From<i8>>(told: Told<T>) -> T {
    told.unwrap_or_else(|error| {
        // SAFETY: errno of this thread.
        unsafe { *__errno_location() = error };
        T::from(-1)
    })
}

fn zero(told: Told<()>) -> c_int {
    answered(told.map(|()| 0))
}

/// The kernel's `struct iocb`.
#[repr(C)]
struct Iocb {
    data: u64,
    key: u32,
    flags: u32,
    opcode: u16,
    priority: i16,
    file: u32,
    buffer: u64,
    length: u64,
    at: i64,
    reserved: u64,
    notify: u32,
    notify_file: u32,
}

/// The kernel's `struct io_event`.
#[repr(C)]
struct IoEvent {
    data: u64,
    object: u64,
    result: i64,
    second: i64,
}

/// x86-64's `struct stat`.
#[repr(C)]
struct Stat {
    device: u64,
    inode: u64,
    links: u64,
    mode: u32,
    owners: [u32; 3],
    is_device: u64,
    length: i64,
    rest: [i64; 11],
}

/// x86-64's `struct statfs`.
#[repr(C)]
struct Statfs {
    kind: i64,
    rest: [u64; 14],
}

/// The kernel's `struct statx`, as far as it is asked for.
#[repr(C)]
struct Statx {
    told: u32,
    rest: [u32; 37],
    memory: u32,
    least: u32,
    spare: [u32; 24],
}

const _: () = {
    assert!(size_of::<Iocb>() == 64);
    assert!(size_of::<IoEvent>() == 32);
    assert!(size_of::<Stat>() == 144);
    assert!(size_of::<Statfs>() == 120);
    assert!(size_of::<Statx>() == 256);
    assert!(offset_of!(Statx, least) == 156);
};

#[no_mangle]
unsafe extern "C" fn crash_open(path: *const c_char, flags: c_int) -> c_int {
    // SAFETY: a string that ends with a zero.
    let path = unsafe { CStr::from_ptr(path) };
    let path = path.to_str().expect("a path of this crate, or of ASCII");
    answered(system::with(|system| system.open(path, flags)))
}

#[no_mangle]
extern "C" fn crash_close(file: c_int) -> c_int {
    zero(system::with(|system| system.close(file)))
}

#[no_mangle]
unsafe extern "C" fn crash_unlink(path: *const c_char) -> c_int {
    // SAFETY: a string that ends with a zero.
    let path = unsafe { CStr::from_ptr(path) };
    let path = path.to_str().expect("a path of this crate");
    zero(system::with(|system| system.unlink(path)))
}

#[no_mangle]
unsafe extern "C" fn crash_pread(file: c_int, buffer: *mut u8, n: usize, at: i64) -> isize {
    // SAFETY: a buffer of n bytes, which the layer has filled before.
    let buffer = unsafe { slice::from_raw_parts_mut(buffer, n) };
    let read = system::with(|system| system.read(file, at as usize, buffer));
    answered(read.map(|read| read as isize))
}

#[no_mangle]
unsafe extern "C" fn crash_pwrite(file: c_int, bytes: *const u8, n: usize, at: i64) -> isize {
    // SAFETY: n bytes.
    let bytes = unsafe { slice::from_raw_parts(bytes, n) };
    let written = system::with(|system| system.write(file, at as usize, bytes));
    answered(written.map(|written| written as isize))
}

#[no_mangle]
extern "C" fn crash_fdatasync(file: c_int) -> c_int {
    zero(system::with(|system| system.sync(file)))
}

#[no_mangle]
extern "C" fn crash_fsync(file: c_int) -> c_int {
    zero(system::with(|system| system.sync(file)))
}

#[no_mangle]
extern "C" fn crash_ftruncate(file: c_int, length: i64) -> c_int {
    zero(system::with(|system| {
        system.truncate(file, length as usize)
    }))
}

#[no_mangle]
extern "C" fn crash_flock(file: c_int, _how: c_int) -> c_int {
    zero(system::with(|system| system.lock(file)))
}

/// The layer asks for the end alone.
#[no_mangle]
extern "C" fn crash_lseek(file: c_int, _by: i64, _from: c_int) -> i64 {
    let status = system::with(|system| system.status(file));
    answered(status.map(|status| status.length as i64))
}

/// What the system tells of a file or device.
fn stat(status: Status) -> Stat {
    const FILE: u32 = 0o100000;
    const DEVICE: u32 = 0o060000;
    /// The device 8:1.
    const NUMBERS: u64 = 0x801;
    Stat {
        device: NUMBERS,
        inode: 1,
        links: 1,
        mode: if status.device { DEVICE } else { FILE },
        owners: [0; 3],
        is_device: NUMBERS,
        length: if status.device {
            0
        } else {
            status.length as i64
        },
        rest: [0; 11],
    }
}

#[no_mangle]
unsafe extern "C" fn crash_fstat(file: c_int, found: *mut Stat) -> c_int {
    let status = system::with(|system| system.status(file));
    // SAFETY: the layer's struct, of the same size.
    zero(status.map(|status| unsafe { found.write(stat(status)) }))
}

#[no_mangle]
unsafe extern "C" fn crash_stat(path: *const c_char, found: *mut Stat) -> c_int {
    // SAFETY: a string that ends with a zero.
    let path = unsafe { CStr::from_ptr(path) };
    let path = path.to_str().expect("a path of this crate");
    let status = system::with(|system| system.status_of(path));
    // SAFETY: the layer's struct, of the same size.
    zero(status.map(|status| unsafe { found.write(stat(status)) }))
}

/// The layer asks for the least block alone, of a file that is open.
#[no_mangle]
unsafe extern "C" fn crash_statx(
    file: c_int,
    _path: *const c_char,
    _flags: c_int,
    _mask: c_uint,
    found: *mut Statx,
) -> c_int {
    const LEAST_BLOCK: u32 = 0x2000;
    let least = system::with(|system| system.least_block(file)).map(|least| {
        let statx = Statx {
            told: LEAST_BLOCK,
            rest: [0; 37],
            memory: least,
            least,
            spare: [0; 24],
        };
        // SAFETY: the layer's struct, of the same size.
        unsafe { found.write(statx) };
    });
    zero(least)
}

#[no_mangle]
unsafe extern "C" fn crash_fstatfs(file: c_int, found: *mut Statfs) -> c_int {
    const EXT: i64 = 0xEF53;
    let told = system::with(|system| system.status(file)).map(|_| {
        let statfs = Statfs {
            kind: EXT,
            rest: [0; 14],
        };
        // SAFETY: the layer's struct, of the same size.
        unsafe { found.write(statfs) };
    });
    zero(told)
}

#[no_mangle]
extern "C" fn crash_posix_fadvise(_file: c_int, _from: i64, _n: i64, _advice: c_int) -> c_int {
    0
}

#[no_mangle]
extern "C" fn crash_madvise(_at: *mut c_void, _n: usize, _advice: c_int) -> c_int {
    0
}

fn pages(n: usize) -> Layout {
    const PAGE: usize = 4096;
    Layout::from_size_align(n.max(1), PAGE).expect("a card's length")
}

/// A copy, as aligned as a mapping.
#[no_mangle]
unsafe extern "C" fn crash_mmap(
    _at: *mut c_void,
    n: usize,
    _protection: c_int,
    _flags: c_int,
    file: c_int,
    _from: i64,
) -> *mut c_void {
    let copied = system::with(|system| system.map(file, n)).map(|bytes| {
        // SAFETY: memory of n bytes at least, into which as many are copied.
        unsafe {
            let memory = alloc(pages(n));
            assert!(!memory.is_null());
            ptr::copy_nonoverlapping(bytes.as_ptr(), memory, n);
            system::with(|system| system.mapped(memory as usize, n));
            memory as isize
        }
    });
    answered(copied) as *mut c_void
}

#[no_mangle]
unsafe extern "C" fn crash_munmap(at: *mut c_void, n: usize) -> c_int {
    assert!(system::with(|system| system.unmapped(at as usize, n)));
    // SAFETY: memory that crash_mmap gave for the same n, and that is not given up yet.
    unsafe { dealloc(at.cast(), pages(n)) };
    0
}

/// The calls of AIO; no other is known.
#[no_mangle]
unsafe extern "C" fn crash_syscall(
    number: c_long,
    a: usize,
    b: usize,
    c: usize,
    d: usize,
) -> c_long {
    let told = match number {
        // SAFETY: the second argument is where the context is to stand.
        206 => system::with(|system| system.aio_begin())
            .map(|context| unsafe { (b as *mut u64).write(context) })
            .map(|()| 0),
        207 => system::with(|system| system.aio_end(a as u64)).map(|()| 0),
        // SAFETY: the fourth argument has room for as many events as the third says.
        208 => unsafe { told_events(a as u64, c, d as *mut IoEvent) },
        // SAFETY: the third argument has as many pointers to requests as the second says.
        209 => unsafe { submitted(a as u64, b, c as *const *const Iocb) },
        _ => Err(ENOSYS),
    };
    answered(told.map(|count| count as c_long))
}

unsafe fn submitted(context: u64, n: usize, listed: *const *const Iocb) -> Told<usize> {
    const WRITE: u16 = 1;
    // SAFETY: n pointers, each to a request.
    let listed = unsafe { slice::from_raw_parts(listed, n) };
    let requests = listed.iter().map(|request| {
        // SAFETY: a request, whose bytes stay until it is told of.
        let (request, bytes) = unsafe {
            let request = &**request;
            let from = request.buffer as *const u8;
            (
                request,
                slice::from_raw_parts(from, request.length as usize),
            )
        };
        assert_eq!(request.opcode, WRITE);
        Request {
            file: request.file as i32,
            data: request.data,
            object: ptr::from_ref(request) as u64,
            at: request.at as usize,
            bytes,
        }
    });
    let requests: Vec<Request> = requests.collect();
    system::with(|system| system.submit(context, &requests))
}

unsafe fn told_events(context: u64, most: usize, events: *mut IoEvent) -> Told<usize> {
    let ended = system::with(|system| system.events(context, most))?;
    for (i, completion) in ended.iter().enumerate() {
        let Completion {
            data,
            object,
            result,
        } = *completion;
        let event = IoEvent {
            data,
            object,
            result,
            second: 0,
        };
        // SAFETY: there are no more events than there is room for.
        unsafe { events.add(i).write(event) };
    }
    Ok(ended.len())
}
