//! How often calls named the OIDs at the borders of ranges, which touch or lie
//! apart (#101).

use crate::call::{Answer, Call, NAMES};
use crate::cuts::{add_all, named};
use model::{Range, Store};

/// An OID in a range: neither 9 nor 21.
const FOUND: u32 = 0;

/// Where an OID stands among the ranges.
pub struct Border {
    name: &'static str,
    /// What must be answered: 9, 21, or `FOUND`.
    number: u32,
    is_at: fn(&[Range], u64) -> bool,
}

pub const BORDERS: [Border; 14] = [
    border("far below the first range", 9, |r, oid| oid + 1 < first(r)),
    border("just below the first range", 9, |r, oid| {
        oid + 1 == first(r)
    }),
    border("first of all", FOUND, |r, oid| oid == first(r)),
    border("last before a gap", FOUND, |r, oid| {
        gap(r, |begin, _| oid + 1 == begin)
    }),
    border("first in a gap", 21, |r, oid| {
        gap(r, |begin, end| begin == oid && oid + 1 < end)
    }),
    border("amid a gap", 21, |r, oid| {
        gap(r, |begin, end| begin < oid && oid + 1 < end)
    }),
    border("last in a gap", 21, |r, oid| {
        gap(r, |begin, end| begin < oid && oid + 1 == end)
    }),
    border("alone in a gap", 21, |r, oid| {
        gap(r, |begin, end| begin == oid && oid + 1 == end)
    }),
    border("first after a gap", FOUND, |r, oid| {
        gap(r, |_, end| oid == end)
    }),
    border("last before a range that touches", FOUND, |r, oid| {
        touching(r, oid + 1)
    }),
    border("first of a range that touches", FOUND, touching),
    border("last of all", FOUND, |r, oid| oid + 1 == end(r)),
    border("just above the last range", 9, |r, oid| oid == end(r)),
    border("far above the last range", 9, |r, oid| oid > end(r)),
];

const fn border(name: &'static str, number: u32, is_at: fn(&[Range], u64) -> bool) -> Border {
    Border {
        name,
        number,
        is_at,
    }
}

fn first(ranges: &[Range]) -> u64 {
    ranges.first().map_or(0, |range| range.first.into())
}

fn end(ranges: &[Range]) -> u64 {
    ranges.last().map_or(0, Range::end)
}

/// Is there a gap, told by its first OID and the one after its last, of which
/// that is true?
fn gap(ranges: &[Range], is: impl Fn(u64, u64) -> bool) -> bool {
    let mut gaps = ranges
        .windows(2)
        .map(|pair| (pair[0].end(), pair[1].first.into()));
    gaps.any(|(begin, end)| begin < end && is(begin, end))
}

/// Does a range end where another begins, with that OID?
fn touching(ranges: &[Range], oid: u64) -> bool {
    let mut pairs = ranges.windows(2);
    pairs.any(|pair| pair[0].end() == oid && u64::from(pair[1].first) == oid)
}

impl Border {
    /// Does the call name an OID there?
    pub fn is_named(&self, call: &Call, store: &Store) -> bool {
        let oid = call.oid().map(u64::from);
        oid.is_some_and(|oid| (self.is_at)(&store.geometry.ranges, oid))
    }

    /// Questions 1 to 3 come first.
    fn is_answered(&self, answer: &Answer) -> bool {
        match answer.number() {
            Some(1..=3) | None => false,
            Some(number @ (9 | 21)) => number == self.number,
            Some(_) => self.number == FOUND,
        }
    }
}

/// The calls that name an OID: key, read, write and rescind.
const NAMING: std::ops::Range<usize> = 2..6;

#[derive(Clone, Default)]
pub struct Borders([[u64; NAMING.end - NAMING.start]; BORDERS.len()]);

impl Borders {
    /// A call that was made, with the store after it.
    pub fn count_made(&mut self, call: &Call, answer: &Answer, store: &Store) {
        for (border, times) in BORDERS.iter().zip(&mut self.0) {
            if border.is_named(call, store) && border.is_answered(answer) {
                times[call.row() - NAMING.start] += 1;
            }
        }
    }

    pub fn add(&mut self, other: &Borders) {
        add_all(self.0.as_flattened_mut(), other.0.as_flattened());
    }

    pub fn missing(&self) -> Vec<String> {
        let mut missing = Vec::new();
        for (border, times) in BORDERS.iter().zip(self.0) {
            let calls = NAMES[NAMING].iter().zip(times);
            for (call, _) in calls.filter(|(_, times)| *times == 0) {
                missing.push(format!("{call} of an OID {}", border.name));
            }
        }
        missing
    }

    pub fn table(&self) -> String {
        let rows = BORDERS.iter().zip(&self.0);
        let rows = rows.map(|(Border { name, number, .. }, times)| {
            let number = match *number {
                FOUND => "found".into(),
                number => number.to_string(),
            };
            format!("  {name}, {number}: {}\n", named(&NAMES[NAMING], times))
        });
        format!("  OIDs that calls named:\n{}", rows.collect::<String>())
    }
}
