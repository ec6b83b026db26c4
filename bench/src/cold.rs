//! Files as they are after a power cut: on the disk, and nothing of them in memory.

use std::ffi::{c_int, c_void};
use std::fs::File;
use std::os::fd::AsRawFd;
use std::path::Path;
use std::ptr::null_mut;

const POSIX_FADV_DONTNEED: c_int = 4;
const PROT_READ: c_int = 1;
const MAP_SHARED: c_int = 1;
const MEMORY_PAGE: usize = 4096;

extern "C" {
    fn posix_fadvise(file: c_int, from: i64, length: i64, advice: c_int) -> c_int;
    fn mmap(
        at: *mut c_void,
        length: usize,
        protection: c_int,
        flags: c_int,
        file: c_int,
        from: i64,
    ) -> *mut c_void;
    fn munmap(at: *mut c_void, length: usize) -> c_int;
    fn mincore(at: *mut c_void, length: usize, told: *mut u8) -> c_int;
}

/// Syncs a file, whether it needs that or not.
pub fn sync(path: &Path) -> File {
    let file = File::open(path).expect("a store's file");
    file.sync_all().expect("the file synced");
    file
}

/// Takes a file that nobody has open out of the page cache, and sees that it is out.
pub fn drop_cached(path: &Path) {
    let file = sync(path);
    // SAFETY: numbers alone.
    let failed = unsafe { posix_fadvise(file.as_raw_fd(), 0, 0, POSIX_FADV_DONTNEED) };
    assert_eq!(failed, 0, "posix_fadvise");
    assert_eq!(
        cached(&file),
        0,
        "memory pages of {} cached",
        path.display()
    );
}

/// Memory pages of a file that are in the page cache.
fn cached(file: &File) -> usize {
    let length = file.metadata().expect("a file's length").len() as usize;
    if length == 0 {
        return 0;
    }
    let mut told = vec![0; length.div_ceil(MEMORY_PAGE)];
    // SAFETY: a new mapping, at a place that the system chooses, whose bytes are never looked at;
    // there is room for a byte of each of its pages.
    unsafe {
        let fd = file.as_raw_fd();
        let at = mmap(null_mut(), length, PROT_READ, MAP_SHARED, fd, 0);
        assert_ne!(at as isize, -1, "mmap");
        assert_eq!(mincore(at, length, told.as_mut_ptr()), 0, "mincore");
        munmap(at, length);
    }
    told.iter().filter(|page| **page & 1 != 0).count()
}
