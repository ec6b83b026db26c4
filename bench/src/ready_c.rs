//! The ready layer in C, `lane_file`, by `include/lane_file.h`.

use crate::card::{self, AREA, WAITING};
use crate::store::{commit, Page, PageStore};
use lane::file::Promise;
use std::ffi::{c_char, c_int, c_uint, c_void, CStr, CString};
use std::path::{Path, PathBuf};
use std::ptr::null_mut;

type Lane = *mut c_void;

const DONE: c_int = 0;

/// `lane_file_options`; zeros are the defaults.
#[repr(C)]
#[derive(Clone, Copy, Default)]
struct Options {
    frames: usize,
    room: c_uint,
    promise: c_uint,
    unmapped: c_int,
    replace: c_int,
}

#[link(name = "lane_file", kind = "static")]
extern "C" {
    fn lane_file_create(
        lane: *mut Lane,
        path: *const c_char,
        area: usize,
        ranges: *const u32,
        ranges_len: usize,
        options: *const Options,
    ) -> c_int;
    fn lane_file_open(lane: *mut Lane, path: *const c_char, options: *const Options) -> c_int;
    fn lane_file_close(lane: Lane);
    fn lane_file_key(lane: Lane, oid: u32, count: *mut u32) -> c_int;
    fn lane_file_read(lane: Lane, oid: u32, count: u32, page: *mut c_void) -> c_int;
    fn lane_file_write(
        lane: Lane,
        oid: u32,
        count: u32,
        at: usize,
        bytes: *const c_void,
        n: usize,
    ) -> c_int;
    fn lane_file_commit(lane: Lane) -> c_int;
    fn lane_file_settle(lane: Lane) -> c_int;
    fn lane_file_text(answer: c_int) -> *const c_char;
}

/// A lane that is open, until dropped.
struct Opened(Lane);

pub struct ReadyC {
    path: PathBuf,
    name: CString,
    options: Options,
    opened: Option<Opened>,
}

fn check(answer: c_int) {
    if answer != DONE {
        // SAFETY: every answer has a text with an end that stays.
        let text = unsafe { CStr::from_ptr(lane_file_text(answer)) };
        panic!("lane_file: {answer}: {}", text.to_string_lossy());
    }
}

/// The number in `enum lane_file_promise`.
fn number(promise: Promise) -> c_uint {
    match promise {
        Promise::Asked => 0,
        Promise::Vouched => 1,
        Promise::Kill => 2,
    }
}

impl Opened {
    fn create(name: &CStr, options: &Options) -> Opened {
        let ranges = card::numbers();
        let mut lane = null_mut();
        // SAFETY: a place to fill, a text with an end, numbers with their length, and options.
        check(unsafe {
            lane_file_create(
                &mut lane,
                name.as_ptr(),
                AREA,
                ranges.as_ptr(),
                ranges.len(),
                options,
            )
        });
        Opened(lane)
    }

    fn open(name: &CStr, options: &Options) -> Opened {
        let mut lane = null_mut();
        // SAFETY: a place to fill, a text with an end, and options.
        check(unsafe { lane_file_open(&mut lane, name.as_ptr(), options) });
        Opened(lane)
    }

    fn count(&self, oid: u32) -> u32 {
        let mut count = 0;
        // SAFETY: an open lane, and a place to fill.
        check(unsafe { lane_file_key(self.0, oid, &mut count) });
        count
    }
}

impl Drop for Opened {
    fn drop(&mut self) {
        // SAFETY: an open lane, not used again.
        unsafe { lane_file_close(self.0) };
    }
}

impl ReadyC {
    /// A new card that holds the given pages.
    pub fn create(path: &Path, promise: Promise, pages: &[(u32, Page)]) -> ReadyC {
        let name = CString::new(path.to_str().expect("a path in UTF-8")).expect("a path");
        let options = Options {
            promise: number(promise),
            ..Options::default()
        };
        let opened = Opened::create(&name, &options);
        let mut ready = ReadyC {
            path: path.to_path_buf(),
            name,
            options,
            opened: Some(opened),
        };
        for batch in pages.chunks(WAITING) {
            commit(&mut ready, batch);
        }
        ready
    }

    fn opened(&self) -> &Opened {
        self.opened.as_ref().expect("an open lane")
    }
}

impl PageStore for ReadyC {
    fn read(&mut self, oid: u32, page: &mut Page) {
        let lane = self.opened();
        let count = lane.count(oid);
        // SAFETY: an open lane, and a page's bytes to fill.
        check(unsafe { lane_file_read(lane.0, oid, count, page.as_mut_ptr().cast()) });
    }

    fn write(&mut self, oid: u32, page: &Page) {
        let lane = self.opened();
        let count = lane.count(oid);
        let bytes = page.as_ptr().cast();
        // SAFETY: an open lane, and bytes with their length.
        check(unsafe { lane_file_write(lane.0, oid, count, 0, bytes, page.len()) });
    }

    fn commit(&mut self) {
        // SAFETY: an open lane.
        check(unsafe { lane_file_commit(self.opened().0) });
    }

    fn settle(&mut self) {
        // SAFETY: an open lane.
        check(unsafe { lane_file_settle(self.opened().0) });
    }

    fn stop(&mut self) {
        self.opened = None;
    }

    fn start(&mut self) {
        self.opened = Some(Opened::open(&self.name, &self.options));
    }

    fn files(&self) -> Vec<PathBuf> {
        vec![self.path.clone()]
    }
}
