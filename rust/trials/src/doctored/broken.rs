//! Records that do not hold together, by the sentences of question 2.

mod entries;

use super::form::{
    compare, place_at, put_entry, put_place, put_size, size_at, Directory, AREA, COMMIT, COMMITTED,
    CURRENT, FIRST, FLUSHED, GEOMETRY_BLOCKS, HEAD, MIGRATED, OWED, PAGES, PENDING, PHASE, RANGES,
    RANGE_NUMBERS, TAIL, WRITING,
};
use crate::library::Record;
use model::generation::{directory_blocks, size, Changes, Committed, Pending};
use model::{Phase, Store};

/// The sentences, but for those on the entries of each directory.
const SENTENCES: [&str; 25] = [
    "A",
    "the number of ranges",
    "the number of blocks",
    "n of the first range",
    "the second first OID",
    "commit, of a committed generation",
    "commit, of none",
    "commit, with one pending",
    "e of the committed",
    "p of the committed",
    "the first block",
    "the number migrated",
    "a waiting place without entry",
    "a waiting place named twice",
    "p of a pending without entry",
    "more down than taken",
    "a size above H",
    "sizes above A",
    "more waiting than memory has",
    "head",
    "tail, while a pending frame waits",
    "tail, above directory and trailer",
    "the phase",
    "flushed, before all is down",
    "owed, with work done",
];

/// All that a run must have broken, in one state or another.
pub fn sentences() -> impl Iterator<Item = String> {
    SENTENCES
        .map(String::from)
        .into_iter()
        .chain(entries::sentences())
}

/// A record with one sentence broken.
pub struct Broken {
    pub sentence: String,
    /// What was done to it.
    pub what: String,
    pub record: Record,
}

struct Breaker<'r> {
    good: &'r Record,
    store: &'r Store,
    made: Doctored,
}

/// Records made from a good one.
#[derive(Default)]
pub struct Doctored {
    /// These must be refused 2.
    pub broken: Vec<Broken>,
    /// These keep a limit by one and hold together.
    pub held: Vec<Record>,
}

/// Records made from a good one of that store.
pub fn doctored(good: &Record, store: &Store) -> Result<Doctored, String> {
    compare(good, store)?;
    let mut breaker = Breaker {
        good,
        store,
        made: Doctored::default(),
    };
    breaker.geometry();
    match &store.committed {
        Some(committed) => breaker.committed(committed),
        None => breaker.no_committed(),
    }
    match &store.pending {
        Some(pending) => breaker.pending(pending),
        None => breaker.no_pending(),
    }
    breaker.entries(CURRENT);
    breaker.places(CURRENT, &store.current);
    breaker.memory();
    breaker.phase();
    Ok(breaker.made)
}

impl Breaker<'_> {
    fn push(
        &mut self,
        sentence: impl Into<String>,
        what: String,
        change: impl FnOnce(&mut Record),
    ) {
        let mut record = *self.good;
        change(&mut record);
        self.made.broken.push(Broken {
            sentence: sentence.into(),
            what,
            record,
        });
    }

    /// One number made another.
    fn set(&mut self, sentence: &str, at: usize, to: usize) {
        let what = format!("made {to}");
        self.push(sentence, what, |record| put_size(record, at, to));
    }

    /// The flush before a header write comes when all else is done, the one
    /// that is owed before anything is.
    fn phase(&mut self) {
        for other in [3, 4, 256] {
            self.set("the phase", PHASE, other);
        }
        let pending = self.store.pending.as_ref();
        let committed = self.store.committed.as_ref();
        let all_home = committed.is_none_or(|c| c.migrated == c.entries.len());
        let all_down = pending.is_some_and(|p| p.trailer_down) && all_home;
        let begun = committed.is_some_and(|c| c.migrated > 0)
            || pending.is_some_and(|p| p.directory_down > 0 || p.trailer_down);
        self.hold(PHASE, WRITING);
        if all_down {
            self.hold(PHASE, FLUSHED);
        } else {
            self.set("flushed, before all is down", PHASE, FLUSHED);
        }
        if begun {
            self.set("owed, with work done", PHASE, OWED);
        } else {
            self.hold(PHASE, OWED);
        }
    }

    /// How many entries are home or passed over goes with the phase: all before
    /// H, none while a flush is owed, and else any.
    fn migrated(&mut self, e: usize) {
        for other in (0..=e).filter(|other| *other != size_at(self.good, MIGRATED)) {
            match self.store.phase {
                Phase::Writing => self.hold(MIGRATED, other),
                Phase::Flushed => self.set("flushed, before all is down", MIGRATED, other),
                Phase::Owed => self.set("owed, with work done", MIGRATED, other),
            }
        }
        self.set("the number migrated", MIGRATED, e + 1);
    }

    /// One number made another that holds too.
    fn hold(&mut self, at: usize, to: usize) {
        let mut record = *self.good;
        put_size(&mut record, at, to);
        self.made.held.push(record);
    }

    /// Geometry passes 5.
    fn geometry(&mut self) {
        let geometry = &self.store.geometry;
        let area = geometry.area;
        for other in [0, 7, 513, area - 1, area + 1] {
            self.set("A", AREA, other);
        }
        for other in [0, geometry.ranges.len() - 1, 9] {
            self.set("the number of ranges", RANGES, other);
        }
        for other in [geometry.blocks - 1, geometry.blocks + 1] {
            self.set("the number of blocks", GEOMETRY_BLOCKS, other);
        }
        let n = geometry.ranges[0].pages as usize;
        for other in [0, n + 1] {
            self.set("n of the first range", RANGE_NUMBERS + 4, other);
        }
        if geometry.ranges.len() > 1 {
            let first = geometry.ranges[0].first as usize;
            self.set("the second first OID", RANGE_NUMBERS + 8, first);
        }
    }

    /// Commit is 0 if there is no committed generation, and then the first
    /// one starts at block 1.
    fn no_committed(&mut self) {
        for other in [1, u32::MAX as usize - 1] {
            self.set("commit, of none", COMMIT, other);
        }
        self.set("p of the committed", PAGES, 1);
        self.set("e of the committed", COMMITTED.count, 1);
        self.set("the number migrated", MIGRATED, 1);
        for other in [0, 2] {
            self.set("the first block", FIRST, other);
        }
    }

    /// What is copied or passed over is within the directory's count.
    fn committed(&mut self, committed: &Committed) {
        let (p, e) = (committed.p, committed.entries.len());
        let geometry = &self.store.geometry;
        self.set("commit, of a committed generation", COMMIT, 0);
        self.entries(COMMITTED);
        for other in [0, p + 1] {
            self.set("e of the committed", COMMITTED.count, other);
        }
        self.migrated(e);
        for other in [0, geometry.half()] {
            self.set("p of the committed", PAGES, other);
        }
        for other in [0, geometry.area + 1] {
            self.set("the first block", FIRST, other);
        }
    }

    /// Of directory and trailer no more is down than they have, and nothing
    /// while a frame waits. Commit can still rise.
    fn pending(&mut self, pending: &Pending) {
        let changes = &pending.changes;
        self.set("commit, with one pending", COMMIT, u32::MAX as usize);
        self.entries(PENDING);
        self.places(PENDING, changes);
        self.both_at_half(changes);
        let whole = directory_blocks(changes.e()) + 1;
        if changes.waiting.is_empty() {
            self.set("tail, above directory and trailer", TAIL, whole + 1);
        } else {
            for other in [1, whole] {
                self.set("tail, while a pending frame waits", TAIL, other);
            }
        }
        let what = "entries dropped, all places down".to_string();
        self.push("p of a pending without entry", what, |record| {
            put_size(record, PENDING.count, 0);
            put_size(record, PENDING.down, changes.p());
            put_size(record, TAIL, 0);
        });
    }

    fn no_pending(&mut self) {
        self.set("tail, above directory and trailer", TAIL, 1);
        self.set("more down than taken", PENDING.down, 1);
        let what = "a place taken and down".to_string();
        self.push("p of a pending without entry", what, |record| {
            put_size(record, PENDING.taken, 1);
            put_size(record, PENDING.down, 1);
        });
    }

    /// What is down is at most p; the stretches are each at most H and together
    /// at most A.
    fn places(&mut self, directory: Directory, changes: &Changes) {
        self.set("more down than taken", directory.down, changes.p() + 1);
        if changes.e() == 0 {
            return;
        }
        let to_half = self.store.geometry.half() - changes.size();
        let taken = self.store.other_sizes() + self.store.current.size();
        let to_area = self.store.geometry.area - taken;
        if to_half < to_area {
            self.push_up("a size above H", directory, to_half + 1);
        }
        if to_area < to_half {
            self.push_up("sizes above A", directory, to_area + 1);
        }
        let held = longer(self.good, directory, to_half.min(to_area));
        self.made.held.push(held);
        if to_half.min(to_area) > 0 {
            self.waiting_places(directory, changes);
        }
    }

    fn push_up(&mut self, sentence: &str, directory: Directory, by: usize) {
        let longer = longer(self.good, directory, by);
        let what = format!("by {by} more places");
        self.push(sentence, what, |record| *record = longer);
    }

    /// Each waiting frame stands once in the directory. There is room for one
    /// more place, so that place 0 can be one whose block is down; and where only
    /// the last place waits, another entry can be moved there.
    fn waiting_places(&mut self, directory: Directory, changes: &Changes) {
        let (p, down) = (changes.p(), changes.written.len());
        let longer = longer(self.good, directory, 1);
        for i in 0..changes.e() {
            let at = directory.place(i);
            let place = place_at(self.good, at);
            if place >= down {
                let what = format!("entry {i} at place 0");
                self.push("a waiting place without entry", what, |record| {
                    *record = longer;
                    put_place(record, at, 0);
                });
            }
            if down < p && place < p - 1 {
                let what = format!("entry {i} at place {}", p - 1);
                self.push("a waiting place named twice", what, |record| {
                    put_size(record, directory.down, p - 1);
                    put_place(record, at, p - 1);
                });
            }
        }
    }

    /// Two generations of H blocks and a committed one have no room.
    fn both_at_half(&mut self, pending: &Changes) {
        let half = self.store.geometry.half();
        let current = &self.store.current;
        if self.store.committed.is_none() || current.e() == 0 {
            return;
        }
        let one = longer(self.good, PENDING, half - pending.size());
        let both = longer(&one, CURRENT, half - current.size());
        let what = "pending and current at H".to_string();
        self.push("sizes above A", what, |record| *record = both);
    }

    /// All waiting frames have a memory frame.
    fn memory(&mut self) {
        let frames = self.store.memory;
        for other in [frames, 64, u32::MAX as usize] {
            self.set("head", HEAD, other);
        }
        let pending = self.store.pending.as_ref();
        let free = frames - pending.map_or(0, |pending| pending.changes.waiting.len());
        if let Some(record) = self.all_waiting(free + 1) {
            let what = format!("{} of the current wait", free + 1);
            self.push("more waiting than memory has", what, |other| {
                *other = record
            });
            self.made.held.extend(self.all_waiting(free));
        }
    }

    /// A current generation of so many frames that all wait, if there are so
    /// many home blocks and so much area.
    fn all_waiting(&self, count: usize) -> Option<Record> {
        let geometry = &self.store.geometry;
        let size = size(count, count);
        let home = geometry.blocks - 1 - geometry.area;
        let room = size <= geometry.half() && self.store.other_sizes() + size <= geometry.area;
        if count > home || !room {
            return None;
        }
        let mut record = *self.good;
        put_size(&mut record, CURRENT.count, count);
        put_size(&mut record, CURRENT.taken, count);
        put_size(&mut record, CURRENT.down, 0);
        for i in 0..count {
            put_entry(&mut record, CURRENT, i, (geometry.area + 1 + i, i));
        }
        Some(record)
    }
}

/// A generation made longer, as if so many blocks more were down.
fn longer(good: &Record, directory: Directory, by: usize) -> Record {
    let mut record = *good;
    let down = size_at(good, directory.down);
    for at in [directory.taken, directory.down] {
        put_size(&mut record, at, size_at(good, at) + by);
    }
    for i in 0..size_at(good, directory.count) {
        let place = place_at(good, directory.place(i));
        if place >= down {
            put_place(&mut record, directory.place(i), place + by);
        }
    }
    record
}
