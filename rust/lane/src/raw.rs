//! The library's calls behind safe functions.
//!
//! The library takes any bytes and any numbers. It asks for valid pointers, not null for length 0
//! either, which a slice gives, and that what it may change overlaps nothing else that it is lent,
//! which `&mut` gives.

use crate::c::{
    lane_advance, lane_forecast, lane_format, lane_key, lane_page_out, lane_read, lane_rescind,
    lane_snapshot, lane_start, lane_version, lane_write, Foretold, Present, Record, Report,
};
use crate::Key;

/// A record of zeros, on which every call but start is refused.
pub(crate) fn zeros() -> Record {
    // SAFETY: a record is numbers throughout, and each may be 0.
    unsafe { core::mem::zeroed() }
}

pub(crate) fn version() -> u32 {
    // SAFETY: it is lent nothing.
    unsafe { lane_version() }
}

pub(crate) fn format(card: &mut [u8], area: usize, ranges: &[u32]) -> u32 {
    // SAFETY: two slices, `card` exclusive.
    unsafe {
        lane_format(
            card.as_mut_ptr(),
            card.len(),
            area,
            ranges.as_ptr(),
            ranges.len(),
        )
    }
}

pub(crate) fn start(record: &mut Record, card: &[u8], memory: &[u8]) -> u32 {
    // SAFETY: two slices to read, `record` exclusive.
    unsafe {
        lane_start(
            record,
            card.as_ptr(),
            card.len(),
            memory.as_ptr(),
            memory.len(),
        )
    }
}

pub(crate) fn key(record: &Record, card: &[u8], memory: &[u8], oid: u32) -> Present {
    // SAFETY: a record and two slices, all to read.
    unsafe {
        lane_key(
            record,
            card.as_ptr(),
            card.len(),
            memory.as_ptr(),
            memory.len(),
            oid,
        )
    }
}

pub(crate) fn read(
    record: &Record,
    card: &[u8],
    memory: &[u8],
    key: Key,
    buffer: &mut [u8],
) -> u32 {
    // SAFETY: a record and two slices to read, `buffer` exclusive.
    unsafe {
        lane_read(
            record,
            card.as_ptr(),
            card.len(),
            memory.as_ptr(),
            memory.len(),
            key.oid,
            key.count,
            buffer.as_mut_ptr(),
            buffer.len(),
        )
    }
}

pub(crate) fn write(
    record: &mut Record,
    card: &[u8],
    memory: &mut [u8],
    key: Key,
    at: usize,
    bytes: &[u8],
) -> u32 {
    // SAFETY: two slices to read, `record` and `memory` exclusive.
    unsafe {
        lane_write(
            record,
            card.as_ptr(),
            card.len(),
            memory.as_mut_ptr(),
            memory.len(),
            key.oid,
            key.count,
            at,
            bytes.as_ptr(),
            bytes.len(),
        )
    }
}

pub(crate) fn rescind(record: &mut Record, card: &[u8], memory: &mut [u8], key: Key) -> u32 {
    // SAFETY: one slice to read, `record` and `memory` exclusive.
    unsafe {
        lane_rescind(
            record,
            card.as_ptr(),
            card.len(),
            memory.as_mut_ptr(),
            memory.len(),
            key.oid,
            key.count,
        )
    }
}

pub(crate) fn snapshot(record: &mut Record, card: &[u8], memory: &[u8]) -> u32 {
    // SAFETY: two slices to read, `record` exclusive.
    unsafe {
        lane_snapshot(
            record,
            card.as_ptr(),
            card.len(),
            memory.as_ptr(),
            memory.len(),
        )
    }
}

pub(crate) fn page_out(record: &mut Record, card: &mut [u8], memory: &[u8]) -> Report {
    // SAFETY: one slice to read, `record` and `card` exclusive.
    unsafe {
        lane_page_out(
            record,
            card.as_mut_ptr(),
            card.len(),
            memory.as_ptr(),
            memory.len(),
        )
    }
}

pub(crate) fn advance(record: &mut Record, card: &mut [u8], memory: &[u8]) -> Report {
    // SAFETY: one slice to read, `record` and `card` exclusive.
    unsafe {
        lane_advance(
            record,
            card.as_mut_ptr(),
            card.len(),
            memory.as_ptr(),
            memory.len(),
        )
    }
}

pub(crate) fn forecast(record: &Record, card: &[u8], memory: &[u8]) -> Foretold {
    // SAFETY: a record and two slices, all to read.
    unsafe {
        lane_forecast(
            record,
            card.as_ptr(),
            card.len(),
            memory.as_ptr(),
            memory.len(),
        )
    }
}

#[cfg(test)]
mod tests {
    use super::*;
    use core::mem::size_of;

    /// Nothing but this holds the record's size against the library: refused, start makes a
    /// record's bytes zeros, and none behind.
    #[test]
    fn library_and_crate_agree_on_the_record() {
        let mut words = [u64::MAX; size_of::<Record>() / 8 + 64];
        // SAFETY: the words are aligned as a record and longer, and start does not read what it
        // replaces.
        let refusal =
            unsafe { lane_start(words.as_mut_ptr().cast(), [].as_ptr(), 0, [].as_ptr(), 0) };
        let end = words.iter().rposition(|&word| word != u64::MAX);
        assert_eq!(refusal, 1);
        assert_eq!(end, Some(size_of::<Record>() / 8 - 1));
    }
}
