//! What question 2 asks of the entries of each directory: home blocks by rising
//! frame, and places that are taken.

use super::super::form::{
    entry_at, frame_at, put_entry, put_frame, put_place, put_size, size_at, Directory, COMMITTED,
    CURRENT, PENDING,
};
use super::Breaker;
use model::Geometry;
use std::ops::Range;

const SENTENCES: [&str; 6] = [
    "entries swapped",
    "a frame named twice",
    "frames below home",
    "frames outside the card",
    "a place not taken",
    "p below e",
];

/// The sentences, of each directory.
pub fn sentences() -> impl Iterator<Item = String> {
    let directories = [COMMITTED, PENDING, CURRENT].into_iter();
    directories.flat_map(|directory| SENTENCES.map(|sentence| of(directory, sentence)))
}

fn of(directory: Directory, sentence: &str) -> String {
    format!("{}: {sentence}", directory.name)
}

impl Breaker<'_> {
    /// All six of a directory that has entries.
    pub(super) fn entries(&mut self, directory: Directory) {
        let e = size_at(self.good, directory.count);
        if e == 0 {
            return;
        }
        for i in 1..e {
            self.swap(directory, i);
            let before = frame_at(self.good, directory.frame(i - 1));
            self.renumber("a frame named twice", directory, i..i + 1, before);
        }
        self.not_home(directory, e);
        self.keep_home(directory, e);
        self.places_taken(directory, e);
        self.p_below_e(directory, e);
    }

    /// Entry i and the one before, in each other's place.
    fn swap(&mut self, directory: Directory, i: usize) {
        let what = format!("{} and {i}", i - 1);
        let good = self.good;
        let [before, entry] = [i - 1, i].map(|i| entry_at(good, directory, i));
        self.push(of(directory, "entries swapped"), what, |record| {
            put_entry(record, directory, i - 1, entry);
            put_entry(record, directory, i, before);
        });
    }

    /// These entries get the frames from a number on.
    fn renumber(
        &mut self,
        sentence: &str,
        directory: Directory,
        entries: Range<usize>,
        from: usize,
    ) {
        let what = format!("entries {entries:?} made {from} and on");
        self.push(of(directory, sentence), what, |record| {
            for (i, frame) in entries.zip(from..) {
                put_frame(record, directory.frame(i), frame);
            }
        });
    }

    /// Frames that rise, the first ones at or below A, or the last ones at or
    /// above the number of blocks.
    fn not_home(&mut self, directory: Directory, e: usize) {
        let Geometry { blocks, area, .. } = self.store.geometry;
        let below = "frames below home";
        self.renumber(below, directory, 0..1, 0);
        for i in 0..e.min(area) {
            self.renumber(below, directory, 0..i + 1, area - i);
        }
        let outside = "frames outside the card";
        self.renumber(outside, directory, e - 1..e, usize::from(u16::MAX));
        for i in 0..e {
            self.renumber(outside, directory, i..e, blocks);
        }
    }

    /// The least frame that may stand at each entry, and the greatest at the last.
    fn keep_home(&mut self, directory: Directory, e: usize) {
        let Geometry { blocks, area, .. } = self.store.geometry;
        let mut before = area;
        for i in 0..e {
            self.hold_frame(directory.frame(i), before + 1);
            before = frame_at(self.good, directory.frame(i));
        }
        self.hold_frame(directory.frame(e - 1), blocks - 1);
    }

    fn hold_frame(&mut self, at: usize, to: usize) {
        let mut record = *self.good;
        put_frame(&mut record, at, to);
        self.made.held.push(record);
    }

    /// With all places down each place below p will do, for two entries too.
    fn places_taken(&mut self, directory: Directory, e: usize) {
        let p = size_at(self.good, directory.taken);
        let mut down = *self.good;
        put_size(&mut down, directory.down, p);
        let with = |i: usize, place: usize| {
            let mut record = down;
            put_place(&mut record, directory.place(i), place);
            record
        };
        for i in 0..e {
            self.made
                .held
                .extend([0, p - 1].map(|place| with(i, place)));
            for place in [p, usize::from(u8::MAX)] {
                let what = format!("entry {i} at place {place}");
                let other = with(i, place);
                self.push(of(directory, "a place not taken"), what, |record| {
                    *record = other
                });
            }
        }
    }

    /// One place fewer than entries, which all stand at place 0.
    fn p_below_e(&mut self, directory: Directory, e: usize) {
        if e == 1 {
            return;
        }
        let what = format!("{e} entries at place 0");
        self.push(of(directory, "p below e"), what, |record| {
            for at in [directory.taken, directory.down] {
                put_size(record, at, e - 1);
            }
            for i in 0..e {
                put_place(record, directory.place(i), 0);
            }
        });
    }
}
