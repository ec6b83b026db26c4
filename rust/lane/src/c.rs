//! The library's C interface, as `include/lane.h` has it, for a program that lends the record itself.
//! [`Store`](crate::Store) is the safe one.
//!
//! A caller owes what the first lines of `include/lane.h` say: pointers valid for their lengths, not
//! null for length 0 either, and that what a call may change overlaps nothing else that it is lent.

use core::mem::{offset_of, size_of};

#[repr(C)]
struct Geometry {
    blocks: usize,
    area: usize,
    count: usize,
    ranges: [u32; 16],
}

/// Entries by rising frame, each a frame and the place of its block.
#[repr(C)]
struct Directory {
    count: usize,
    frames: [u16; 256],
    places: [u8; 256],
}

/// Entries by rising frame too, each with the last place that its frame took.
#[repr(C)]
struct Changes {
    count: usize,
    taken: usize,
    down: usize,
    frames: [u16; 256],
    places: [u8; 256],
}

/// The record: made by start, lent to each call, read by none but the library.
#[repr(C)]
pub struct Record {
    frames: usize,
    head: usize,
    geometry: Geometry,
    commit: u32,
    phase: u32,
    first: usize,
    pages: usize,
    committed: Directory,
    migrated: usize,
    pending: Changes,
    tail: usize,
    current: Changes,
}

/// What key answers.
#[repr(C)]
pub struct Present {
    /// 0, or the number of the question that was answered "no".
    pub refusal: u32,
    /// The count; refused, 0.
    pub count: u32,
}

/// What forecast answers.
#[repr(C)]
pub struct Foretold {
    /// 0, or the number of the question that was answered "no".
    pub refusal: u32,
    /// The advances until the pending snapshot is safe; refused, 0.
    pub advances: u32,
}

/// What page-out and advance answer.
#[repr(C)]
pub struct Report {
    /// 1 to 6 for P, D, T, M, H and F; refused, 0.
    pub kind: u32,
    /// 0, or the number of the question that was answered "no".
    pub refusal: u32,
    /// The block written; 0 for F, which writes none, and refused.
    pub block: usize,
}

const _: () = {
    assert!(size_of::<Geometry>() == 88);
    assert!(offset_of!(Geometry, ranges) == 24);
    assert!(size_of::<Directory>() == 776);
    assert!(offset_of!(Directory, places) == 520);
    assert!(size_of::<Changes>() == 792);
    assert!(offset_of!(Changes, places) == 536);
    assert!(size_of::<Record>() == 2504);
    assert!(offset_of!(Record, geometry) == 16);
    assert!(offset_of!(Record, phase) == 108);
    assert!(offset_of!(Record, first) == 112);
    assert!(offset_of!(Record, committed) == 128);
    assert!(offset_of!(Record, pending) == 912);
    assert!(offset_of!(Record, current) == 1712);
    assert!(size_of::<Present>() == 8);
    assert!(offset_of!(Present, count) == 4);
    assert!(size_of::<Foretold>() == 8);
    assert!(offset_of!(Foretold, advances) == 4);
    assert!(size_of::<Report>() == 16);
    assert!(offset_of!(Report, refusal) == 4);
    assert!(offset_of!(Report, block) == 8);
};

extern "C" {
    /// The version of the library's interface.
    pub fn lane_version() -> u32;
    /// Writes each pot, then the header.
    pub fn lane_format(
        card: *mut u8,
        card_len: usize,
        area: usize,
        ranges: *const u32,
        ranges_len: usize,
    ) -> u32;
    /// Makes the record that a card tells of; refused, one of zeros.
    pub fn lane_start(
        s: *mut Record,
        card: *const u8,
        card_len: usize,
        memory: *const u8,
        memory_len: usize,
    ) -> u32;
    /// The present count of a page.
    pub fn lane_key(
        s: *const Record,
        card: *const u8,
        card_len: usize,
        memory: *const u8,
        memory_len: usize,
        oid: u32,
    ) -> Present;
    /// Fills a buffer of 512 bytes.
    pub fn lane_read(
        s: *const Record,
        card: *const u8,
        card_len: usize,
        memory: *const u8,
        memory_len: usize,
        oid: u32,
        count: u32,
        buffer: *mut u8,
        buffer_len: usize,
    ) -> u32;
    /// Puts bytes at an offset.
    pub fn lane_write(
        s: *mut Record,
        card: *const u8,
        card_len: usize,
        memory: *mut u8,
        memory_len: usize,
        oid: u32,
        count: u32,
        at: usize,
        bytes: *const u8,
        bytes_len: usize,
    ) -> u32;
    /// Empties a page, and makes every key to it old.
    pub fn lane_rescind(
        s: *mut Record,
        card: *const u8,
        card_len: usize,
        memory: *mut u8,
        memory_len: usize,
        oid: u32,
        count: u32,
    ) -> u32;
    /// Marks what is present, to be kept once its header is written.
    pub fn lane_snapshot(
        s: *mut Record,
        card: *const u8,
        card_len: usize,
        memory: *const u8,
        memory_len: usize,
    ) -> u32;
    /// Writes the oldest waiting frame to the area.
    pub fn lane_page_out(
        s: *mut Record,
        card: *mut u8,
        card_len: usize,
        memory: *const u8,
        memory_len: usize,
    ) -> Report;
    /// Makes the next block write of a commit or of migration, which passes over empty pages.
    pub fn lane_advance(
        s: *mut Record,
        card: *mut u8,
        card_len: usize,
        memory: *const u8,
        memory_len: usize,
    ) -> Report;
    /// How many advances are left until the pending snapshot is safe.
    pub fn lane_forecast(
        s: *const Record,
        card: *const u8,
        card_len: usize,
        memory: *const u8,
        memory_len: usize,
    ) -> Foretold;
}
