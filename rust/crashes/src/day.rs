//! Days: lists of calls that are made on a layer.

use crate::rng::Rng;
use crate::shape::{Room, Shape};
use lane::{Range, BLOCK};
use std::fmt;

/// A call of a day. Pages are counted over the ranges in order; keys carry the present count.
#[derive(Clone, Debug, PartialEq)]
pub enum Call {
    Key(usize),
    Read(usize),
    Write {
        page: usize,
        at: usize,
        bytes: Vec<u8>,
    },
    Rescind(usize),
    Snapshot,
    Finish,
    Commit,
    Advance,
    /// Advances until one reports H, or nothing is due.
    ToHeader,
    Settle,
    /// The lane is dropped and opened anew, without a cut.
    Reopen,
}

impl fmt::Display for Call {
    fn fmt(&self, f: &mut fmt::Formatter<'_>) -> fmt::Result {
        match self {
            Call::Key(page) => write!(f, "key of page {page}"),
            Call::Read(page) => write!(f, "read page {page}"),
            Call::Write { page, at, bytes } => {
                write!(f, "write page {page} at {at}: {}", shortened(bytes))
            }
            Call::Rescind(page) => write!(f, "rescind page {page}"),
            Call::Snapshot => write!(f, "snapshot"),
            Call::Finish => write!(f, "finish"),
            Call::Commit => write!(f, "commit"),
            Call::Advance => write!(f, "advance"),
            Call::ToHeader => write!(f, "advance until H"),
            Call::Settle => write!(f, "settle"),
            Call::Reopen => write!(f, "reopen"),
        }
    }
}

/// The first bytes, and how many there are.
fn shortened(bytes: &[u8]) -> String {
    let first = &bytes[..bytes.len().min(4)];
    format!("{first:?} of {} bytes", bytes.len())
}

/// How a day begins.
#[derive(Clone, Copy, Debug, PartialEq)]
pub enum Begin {
    /// The layer creates the card, which clears every page's home.
    Created,
    /// The layer opens a card that the library has formatted over any bytes: they still stand in
    /// the area, and at home behind the flags of the empty pages.
    Formatted,
}

#[derive(Clone, Debug)]
pub struct Day {
    pub shape: Shape,
    pub begin: Begin,
    pub calls: Vec<Call>,
}

/// A letter of the short days, which the place of the call makes a call.
#[derive(Clone, Copy, Debug)]
pub enum Letter {
    Write0,
    Write1,
    Rescind0,
    Snapshot,
    Finish,
    Commit,
    Advance,
    ToHeader,
    Settle,
    Reopen,
}

/// Every call but key and read, which record nothing.
pub const ALL: [Letter; 10] = [
    Letter::Write0,
    Letter::Write1,
    Letter::Rescind0,
    Letter::Snapshot,
    Letter::Finish,
    Letter::Commit,
    Letter::Advance,
    Letter::ToHeader,
    Letter::Settle,
    Letter::Reopen,
];

/// The way to a commit in steps.
pub const STEPS: [Letter; 6] = [
    Letter::Write0,
    Letter::Snapshot,
    Letter::Finish,
    Letter::Advance,
    Letter::ToHeader,
    Letter::Reopen,
];

/// Pages that are empty at one snapshot and not at another: which of them go home, and when.
pub const EMPTIED: [Letter; 5] = [
    Letter::Write0,
    Letter::Write1,
    Letter::Rescind0,
    Letter::Snapshot,
    Letter::Commit,
];

/// Those that reach furthest in few calls.
pub const FAR: [Letter; 5] = [
    Letter::Write0,
    Letter::Rescind0,
    Letter::Commit,
    Letter::Settle,
    Letter::Reopen,
];

impl Letter {
    /// The call as the n-th of a day, n from 1: a write puts byte n.
    fn call(self, n: usize) -> Call {
        let write = |page| Call::Write {
            page,
            at: 0,
            bytes: vec![n as u8],
        };
        match self {
            Letter::Write0 => write(0),
            Letter::Write1 => write(1),
            Letter::Rescind0 => Call::Rescind(0),
            Letter::Snapshot => Call::Snapshot,
            Letter::Finish => Call::Finish,
            Letter::Commit => Call::Commit,
            Letter::Advance => Call::Advance,
            Letter::ToHeader => Call::ToHeader,
            Letter::Settle => Call::Settle,
            Letter::Reopen => Call::Reopen,
        }
    }
}

/// The card of the short days: two pages of one run. A 10 is the least area that holds the first
/// writes to both in one generation; A 12 holds a first write committed, another pending and a
/// rescind beside them.
pub fn tiny(area: usize, room: Room) -> Shape {
    Shape {
        area,
        ranges: vec![Range {
            first: 100,
            pages: 2,
        }],
        frames: 4,
        room,
    }
}

/// The day of these letters.
pub fn spelt(letters: &[Letter], shape: &Shape, begin: Begin) -> Day {
    let places = letters.iter().enumerate();
    Day {
        shape: shape.clone(),
        begin,
        calls: places.map(|(i, letter)| letter.call(i + 1)).collect(),
    }
}

/// All days of so many letters, in order.
pub fn all(letters: &[Letter], length: usize) -> impl Iterator<Item = Vec<Letter>> + '_ {
    let days = letters.len().pow(length as u32);
    (0..days).map(move |day| {
        let place = |i| letters[day / letters.len().pow(i as u32) % letters.len()];
        (0..length).rev().map(place).collect()
    })
}

/// How the writes of a long day choose their pages.
#[derive(Clone, Copy)]
enum Habit {
    Scattered,
    /// The page behind the last one.
    Neighbours,
    /// Few pages, again and again.
    Favourites,
}

/// A long day of its own for each seed.
pub fn long(seed: u64) -> Day {
    let mut rng = Rng::new(seed);
    let shape = shape(&mut rng);
    let most = if shape.oids().len() > 60 { 80 } else { 200 };
    let calls = rng.between(most / 2, most);
    let calls = more(&mut rng, &shape, calls);
    let begin = rng.pick(&[Begin::Created, Begin::Formatted]);
    Day {
        shape,
        begin,
        calls,
    }
}

fn shape(rng: &mut Rng) -> Shape {
    let mut ranges = Vec::new();
    let mut first = rng.below(1000) as u32;
    for _ in 0..rng.between(1, 3) {
        let pages = rng.between(1, 14) as u32;
        ranges.push(Range { first, pages });
        first += pages + rng.below(3) as u32;
    }
    if rng.chance(80) {
        // Two runs, so that a range has two pots.
        ranges.last_mut().expect("at least one").pages = 104;
    }
    Shape {
        area: rng.pick(&[8, 9, 10, 12, 15, 16, 20, 24, 33, 48, 64]),
        ranges,
        frames: rng.between(4, 16),
        room: rng.pick(&[Room::Refuse, Room::Make, Room::Commit]),
    }
}

/// So many calls on a card of this shape, by habits that change.
pub fn more(rng: &mut Rng, shape: &Shape, calls: usize) -> Vec<Call> {
    let pages = shape.oids().len();
    let (mut habit, mut page) = (Habit::Scattered, 0);
    let mut list = Vec::new();
    for n in 0..calls {
        if n % 16 == 0 {
            habit = rng.pick(&[Habit::Scattered, Habit::Neighbours, Habit::Favourites]);
        }
        page = match habit {
            Habit::Scattered => rng.below(pages),
            Habit::Neighbours => (page + 1) % pages,
            Habit::Favourites => rng.below(pages.min(3)),
        };
        list.push(call(rng, page));
    }
    list
}

fn call(rng: &mut Rng, page: usize) -> Call {
    match rng.below(100) {
        0..=54 => write(rng, page),
        55..=60 => Call::Rescind(page),
        61..=63 => Call::Key(page),
        64..=66 => Call::Read(page),
        67..=72 => Call::Snapshot,
        73..=74 => Call::Finish,
        75..=81 => Call::Commit,
        82..=91 => Call::Advance,
        92..=94 => Call::ToHeader,
        95..=97 => Call::Settle,
        _ => Call::Reopen,
    }
}

/// Mostly a few bytes anywhere, at times a whole page, seldom none.
fn write(rng: &mut Rng, page: usize) -> Call {
    let (at, length) = match rng.below(20) {
        0 => (rng.between(0, BLOCK), 0),
        1..=5 => (0, BLOCK),
        _ => {
            let at = rng.below(BLOCK);
            (at, rng.between(1, (BLOCK - at).min(40)))
        }
    };
    let mut bytes = vec![0; length];
    rng.fill(&mut bytes);
    Call::Write { page, at, bytes }
}

#[cfg(test)]
mod tests {
    use super::*;

    #[test]
    fn all_short_days_come_once() {
        let mut days: Vec<String> = all(&ALL, 3).map(|day| format!("{day:?}")).collect();
        assert_eq!(days.len(), 1000);
        days.sort();
        days.dedup();
        assert_eq!(days.len(), 1000);
    }

    #[test]
    fn long_days_keep_the_limits() {
        for seed in 0..200 {
            let day = long(seed);
            assert!((8..=64).contains(&day.shape.area));
            assert!((4..=16).contains(&day.shape.frames));
            assert!((1..=3).contains(&day.shape.ranges.len()));
            assert!(day.calls.len() >= 40);
        }
    }
}
