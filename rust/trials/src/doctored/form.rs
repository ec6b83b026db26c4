//! The form of `lane_store`, as include/lane.h has it. Here, and nowhere else,
//! the trials know it.

use crate::library::Record;
use crate::list::numbers;
use model::blocks::{number, put_number};
use model::generation::{Changes, Committed};
use model::{Phase, Store};
use std::collections::BTreeMap;

/// Frames of memory.
pub const FRAMES: usize = 0;
/// The memory frame of the oldest frame that waits.
pub const HEAD: usize = 8;
pub const GEOMETRY_BLOCKS: usize = 16;
pub const AREA: usize = 24;
pub const RANGES: usize = 32;
pub const RANGE_NUMBERS: usize = 40;
pub const COMMIT: usize = 104;
/// How flushes stand, and its three numbers.
pub const PHASE: usize = 108;
pub const WRITING: usize = 0;
pub const FLUSHED: usize = 1;
pub const OWED: usize = 2;
pub const FIRST: usize = 112;
pub const PAGES: usize = 120;
pub const COMMITTED: Directory = Directory {
    name: "committed",
    count: 128,
    taken: PAGES,
    down: PAGES,
    frames: 136,
};
pub const MIGRATED: usize = 904;
pub const PENDING: Directory = Directory {
    name: "pending",
    count: 912,
    taken: 920,
    down: 928,
    frames: 936,
};
/// Blocks down of the pending directory and trailer.
pub const TAIL: usize = 1704;
pub const CURRENT: Directory = Directory {
    name: "current",
    count: 1712,
    taken: 1720,
    down: 1728,
    frames: 1736,
};
/// Bytes of a frame's number. A place has one.
const WIDTH: usize = 2;

/// A generation's directory, and how many of its places are taken and down.
#[derive(Clone, Copy)]
pub struct Directory {
    pub name: &'static str,
    /// Entries, e.
    pub count: usize,
    /// Places taken, p.
    pub taken: usize,
    /// Places whose block is down; of the committed generation all are.
    pub down: usize,
    frames: usize,
}

impl Directory {
    /// The frame of entry i.
    pub const fn frame(self, i: usize) -> usize {
        self.frames + WIDTH * i
    }

    /// The place of entry i, the last one that its frame took.
    pub const fn place(self, i: usize) -> usize {
        self.frame(256) + i
    }
}

pub fn size_at(record: &Record, at: usize) -> usize {
    number(&record.0, at) as usize
}

/// In its low 32 bits.
pub fn put_size(record: &mut Record, at: usize, to: usize) {
    put_number(&mut record.0, at, to as u32);
}

pub fn frame_at(record: &Record, at: usize) -> usize {
    usize::from(u16::from_le_bytes([record.0[at], record.0[at + 1]]))
}

pub fn put_frame(record: &mut Record, at: usize, to: usize) {
    record.0[at..at + WIDTH].copy_from_slice(&(to as u16).to_le_bytes());
}

pub fn place_at(record: &Record, at: usize) -> usize {
    usize::from(record.0[at])
}

pub fn put_place(record: &mut Record, at: usize, to: usize) {
    record.0[at] = to as u8;
}

/// A frame and its place.
pub type Entry = (usize, usize);

pub fn entry_at(record: &Record, directory: Directory, i: usize) -> Entry {
    let frame = frame_at(record, directory.frame(i));
    (frame, place_at(record, directory.place(i)))
}

pub fn put_entry(record: &mut Record, directory: Directory, i: usize, entry: Entry) {
    put_frame(record, directory.frame(i), entry.0);
    put_place(record, directory.place(i), entry.1);
}

/// Does the record say what the model says?
pub fn compare(record: &Record, store: &Store) -> Result<(), String> {
    let ranges = numbers(&store.geometry).into_iter().enumerate();
    let ranges = ranges.map(|(i, number)| (RANGE_NUMBERS + 4 * i, number as usize));
    let sizes = sizes(store).into_iter().chain(pending_sizes(store));
    for (at, size) in sizes.chain(ranges) {
        let told = size_at(record, at);
        if told != size {
            return Err(format!("record byte {at} tells {told}, the model {size}"));
        }
    }
    if size_at(record, HEAD) >= store.memory {
        return Err("the record's head is no memory frame".into());
    }
    for (directory, entries) in directories(store) {
        compare_entries(record, directory, &entries)?;
    }
    Ok(())
}

fn sizes(store: &Store) -> [(usize, usize); 13] {
    let [first, p, e, migrated] = match &store.committed {
        Some(Committed {
            first,
            p,
            entries,
            migrated,
        }) => [*first, *p, entries.len(), *migrated],
        None => [1, 0, 0, 0],
    };
    [
        (FRAMES, store.memory),
        (GEOMETRY_BLOCKS, store.geometry.blocks),
        (AREA, store.geometry.area),
        (RANGES, store.geometry.ranges.len()),
        (COMMIT, store.commit as usize),
        (FIRST, first),
        (PAGES, p),
        (COMMITTED.count, e),
        (MIGRATED, migrated),
        (CURRENT.count, store.current.e()),
        (CURRENT.taken, store.current.p()),
        (CURRENT.down, store.current.written.len()),
        (PHASE, phase(store)),
    ]
}

fn phase(store: &Store) -> usize {
    match store.phase {
        Phase::Writing => WRITING,
        Phase::Flushed => FLUSHED,
        Phase::Owed => OWED,
    }
}

fn pending_sizes(store: &Store) -> [(usize, usize); 4] {
    let [e, p, down, tail] = match &store.pending {
        Some(pending) => [
            pending.changes.e(),
            pending.changes.p(),
            pending.changes.written.len(),
            pending.directory_down + usize::from(pending.trailer_down),
        ],
        None => [0; 4],
    };
    [
        (PENDING.count, e),
        (PENDING.taken, p),
        (PENDING.down, down),
        (TAIL, tail),
    ]
}

fn compare_entries(record: &Record, directory: Directory, entries: &[Entry]) -> Result<(), String> {
    for (i, entry) in entries.iter().enumerate() {
        let told = entry_at(record, directory, i);
        if told != *entry {
            let name = directory.name;
            return Err(format!(
                "{name} entry {i} is {told:?}, the model has {entry:?}"
            ));
        }
    }
    Ok(())
}

/// The entries of each directory.
pub fn directories(store: &Store) -> [(Directory, Vec<Entry>); 3] {
    let pending = store.pending.as_ref();
    let pending = pending.map_or(Vec::new(), |pending| entries(&pending.changes));
    [
        (COMMITTED, committed_entries(store)),
        (PENDING, pending),
        (CURRENT, entries(&store.current)),
    ]
}

/// The place of a committed block is its distance from the generation's first.
fn committed_entries(store: &Store) -> Vec<Entry> {
    let Some(committed) = &store.committed else {
        return Vec::new();
    };
    let place = |block| store.geometry.ring_distance(committed.first, block);
    let entries = committed.entries.iter();
    entries
        .map(|(frame, block)| (*frame, place(*block)))
        .collect()
}

/// By rising frame, each with the last place that it took.
pub fn entries(changes: &Changes) -> Vec<Entry> {
    let places = changes.taken().enumerate();
    let last: BTreeMap<usize, usize> = places.map(|(place, frame)| (frame, place)).collect();
    last.into_iter().collect()
}
