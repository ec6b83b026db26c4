//! How often calls came to the limits of document 01: to A and ranges that just
//! keep or just pass a limit, and to generations that take all of the largest H.

use crate::call::{Answer, Call};
use crate::cuts::{add_all, named};
use model::blocks::number;
use model::geometry::BLOCK;
use model::{Geometry, Kind, Lent, Model, Range};
use std::ops::RangeInclusive;

/// A limit of question 5, kept or passed.
pub struct Limit {
    name: &'static str,
    areas: RangeInclusive<usize>,
    ranges: RangeInclusive<usize>,
    /// What must be answered if the card is filled exactly.
    number: u32,
}

pub const LIMITS: [Limit; 8] = [
    limit("A 7", 7..=7, 1..=8, 5),
    limit("A 8", 8..=8, 1..=8, 0),
    limit("A 512", 512..=512, 1..=8, 0),
    limit("A 513", 513..=513, 1..=8, 5),
    limit("0 ranges", 8..=512, 0..=0, 5),
    limit("1 range", 8..=512, 1..=1, 0),
    limit("8 ranges", 8..=512, 8..=8, 0),
    limit("9 ranges", 8..=512, 9..=9, 5),
];

const fn limit(
    name: &'static str,
    areas: RangeInclusive<usize>,
    ranges: RangeInclusive<usize>,
    number: u32,
) -> Limit {
    Limit {
        name,
        areas,
        ranges,
        number,
    }
}

impl Limit {
    /// Does question 5 turn on this limit alone?
    pub fn decides(&self, told: &Geometry) -> bool {
        self.areas.contains(&told.area) && self.ranges.contains(&told.ranges.len()) && fills(told)
    }
}

/// The calls that ask question 5.
const ASKING: [&str; 2] = ["format", "start"];

/// p and e of a generation of 256 blocks, H of A 512.
pub const FULL: usize = 251;

/// What must come of full generations.
const FATES: [&str; 4] = [
    "refused one change more",
    "committed",
    "found by a start with all pages compared",
    "migrated",
];
const REFUSED: usize = 0;
const COMMITTED: usize = 1;
const FOUND: usize = 2;
const MIGRATED: usize = 3;

/// The geometry that a format is told, or a start by the header. It may break
/// all limits.
pub fn told(call: &Call, lent: Lent, card: &[u8]) -> Option<Geometry> {
    let (area, numbers) = match call {
        Call::Format { area, ranges } => (*area, ranges.clone()),
        Call::Start if lent.card >= BLOCK => (number(card, 12) as usize, header_numbers(card)?),
        _ => return None,
    };
    let pairs = numbers.chunks_exact(2);
    if !pairs.remainder().is_empty() {
        return None;
    }
    let range = |pair: &[u32]| Range {
        first: pair[0],
        pages: pair[1],
    };
    Some(Geometry {
        blocks: lent.card / BLOCK,
        area,
        ranges: pairs.map(range).collect(),
    })
}

/// First OID and n of each range, if the header has room for so many.
fn header_numbers(card: &[u8]) -> Option<Vec<u32>> {
    let numbers = 2 * number(card, 16) as usize;
    let one = |i| number(card, 20 + 4 * i);
    (20 + 4 * numbers <= BLOCK).then(|| (0..numbers).map(one).collect())
}

/// Do the ranges fill the card exactly and keep all limits but their number's?
fn fills(told: &Geometry) -> bool {
    let apart = |pair: &[Range]| pair[0].end() <= u64::from(pair[1].first);
    let whole = |range: &Range| range.pages > 0 && range.end() <= 1 << 32;
    let home: usize = told.ranges.iter().map(Range::blocks).sum();
    told.ranges.windows(2).all(apart)
        && told.ranges.iter().all(whole)
        && told.blocks.checked_sub(1 + home) == Some(told.area)
}

#[derive(Clone, Default)]
pub struct Limits {
    /// By limit, then by the call that asks.
    asked: [[u64; 2]; LIMITS.len()],
    full: [u64; FATES.len()],
}

impl Limits {
    /// An answer of format or start.
    pub fn count_asked(&mut self, call: &Call, answer: &Answer, told: &Geometry) {
        let asking = usize::from(*call == Call::Start);
        for (limit, asked) in LIMITS.iter().zip(&mut self.asked) {
            if answer.number() == Some(limit.number) && limit.decides(told) {
                asked[asking] += 1;
            }
        }
    }

    /// An answer, with the model after it.
    pub fn count_full(&mut self, answer: &Answer, model: &Model) {
        let Some(store) = &model.store else {
            return;
        };
        let committed = store.committed.as_ref();
        let full = committed.filter(|committed| committed.entries.len() == FULL);
        match (answer, full) {
            (Answer::Refused(12), _) => {
                let full = store.current.p() == FULL && store.current.e() == FULL;
                self.full[REFUSED] += u64::from(full);
            }
            (Answer::Wrote(Kind::H, _), Some(_)) => self.full[COMMITTED] += 1,
            (Answer::Wrote(Kind::M, _), Some(committed)) => {
                let left = committed.to_migrate(&model.passed_over());
                self.full[MIGRATED] += u64::from(left.is_none());
            }
            _ => {}
        }
    }

    /// A start, after which all pages were as the book has them.
    pub fn count_found(&mut self) {
        self.full[FOUND] += 1;
    }

    pub fn add(&mut self, other: &Limits) {
        add_all(self.asked.as_flattened_mut(), other.asked.as_flattened());
        add_all(&mut self.full, &other.full);
    }

    /// The limits that no call came to.
    pub fn missing(&self) -> Vec<String> {
        let mut missing = self.missing_asked();
        let full = FATES.iter().zip(self.full).filter(|(_, times)| *times == 0);
        missing.extend(full.map(|(fate, _)| format!("a generation of {FULL} entries {fate}")));
        missing
    }

    fn missing_asked(&self) -> Vec<String> {
        let mut missing = Vec::new();
        for (limit, asked) in LIMITS.iter().zip(self.asked) {
            let Limit { name, number, .. } = limit;
            for (call, _) in ASKING.iter().zip(asked).filter(|(_, times)| *times == 0) {
                missing.push(format!(
                    "{call} {number} of {name} on a card filled exactly"
                ));
            }
        }
        missing
    }

    /// What format and start answered at each limit, then what came of full
    /// generations.
    pub fn table(&self) -> String {
        let asked = LIMITS.iter().zip(&self.asked);
        let asked = asked.map(|(limit, asked)| {
            let Limit { name, number, .. } = limit;
            format!("{name} answered {number} by {}", named(&ASKING, asked))
        });
        let asked: Vec<String> = asked.collect();
        let full = FATES.iter().zip(self.full);
        let full: Vec<String> = full
            .map(|(fate, times)| format!("{fate} {times}"))
            .collect();
        format!(
            "  cards filled exactly: {}\n  generations of {FULL} entries: {}\n",
            asked.join(", "),
            full.join(", ")
        )
    }
}
