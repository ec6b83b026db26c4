//! The parts of a run: creates, short days, long days, and days on a drive that fails.

use crate::cuts::Effort;
use crate::day::{self, all, spelt, tiny, Begin, Call, Day, Letter, ALL, EMPTIED, FAR, STEPS};
use crate::failures;
use crate::layer::{Doing, Layer};
use crate::linked::{Door, InC};
use crate::ready::{Ready, Recorded};
use crate::recorded::{Event, How};
use crate::rng::Rng;
use crate::shape::{Room, Shape};
use crate::shim;
use crate::system::{self, Setting};
use crate::trial::{Before, Run, Trial};
use crate::wrong::Wrong;

/// Of short days all cards, as long as they are not very many.
pub const SHORT: Effort = Effort {
    all: 4096,
    random: 40,
    spoilt: 2,
    go_on: 4,
};

pub const LONG: Effort = Effort {
    all: 256,
    random: 16,
    spoilt: 3,
    go_on: 3,
};

/// The same any bytes for each length.
fn any(length: usize) -> Before {
    let mut bytes = vec![0; length];
    Rng::new(1).fill(&mut bytes);
    Before { bytes, shows: None }
}

fn before(layer: &dyn Layer, shape: &Shape) -> Before {
    any(layer.lengths_before(shape)[0])
}

/// An empty card, formatted over any bytes.
fn formatted(layer: &dyn Layer, shape: &Shape) -> Before {
    let mut before = any(layer.length(shape));
    let card = &mut before.bytes[..shape.length()];
    lane::format(card, shape.area, &shape.ranges).expect("the ranges fill the card");
    before
}

/// What a layer has made of a day: what was recorded, and what it foretold after each call.
type Made = (Vec<Event>, Vec<u32>);

/// A whole day, with cuts in the create and in every call, or in the last call alone.
fn whole(
    run: &mut Run,
    layer: &dyn Layer,
    day: &Day,
    last: bool,
    effort: Effort,
) -> Result<Made, Wrong> {
    let before = match day.begin {
        Begin::Created => before(layer, &day.shape),
        Begin::Formatted => formatted(layer, &day.shape),
    };
    let mut trial = Trial::new(run, layer, &day.shape, before, effort);
    match day.begin {
        Begin::Created => trial.create(!last)?,
        Begin::Formatted => trial.found()?,
    }
    for (i, call) in day.calls.iter().enumerate() {
        trial.call(call, !last || i + 1 == day.calls.len())?;
    }
    let events = trial.record().borrow().events().to_vec();
    Ok((events, trial.foretold().to_vec()))
}

/// All days of up to so many letters. Cuts come in the last call alone: those in the calls before
/// it belong to the shorter days.
pub fn short(
    run: &mut Run,
    layer: &dyn Layer,
    letters: &[Letter],
    longest: usize,
    shape: &Shape,
    begin: Begin,
    effort: Effort,
) -> Result<(), Wrong> {
    run.forget();
    for length in 1..=longest {
        for letters in all(letters, length) {
            whole(run, layer, &spelt(&letters, shape, begin), true, effort)?;
        }
    }
    Ok(())
}

/// The long day of a seed.
pub fn long(run: &mut Run, layer: &dyn Layer, seed: u64, effort: Effort) -> Result<Made, Wrong> {
    run.forget();
    whole(run, layer, &day::long(seed), false, effort)
}

/// Creates over any bytes, over zeros, and over a card with pages on it.
pub fn create(run: &mut Run, layer: &dyn Layer, seed: u64) -> Result<(), Wrong> {
    run.forget();
    let Day { shape, .. } = day::long(seed);
    let mut befores = vec![old_card(run, layer, &shape)?];
    for length in layer.lengths_before(&shape) {
        let zeros = Before {
            bytes: vec![0; length],
            shows: None,
        };
        befores.extend([any(length), zeros]);
    }
    for before in befores {
        let mut trial = Trial::new(run, layer, &shape, before, LONG);
        trial.create(true)?;
    }
    Ok(())
}

/// A card that has been in use.
fn old_card(run: &mut Run, layer: &dyn Layer, shape: &Shape) -> Result<Before, Wrong> {
    let mut calls = day::more(&mut run.rng, shape, 30);
    let write = Call::Write {
        page: 0,
        at: 0,
        bytes: vec![1],
    };
    calls.extend([Call::Commit, write, Call::Commit]);
    let mut trial = Trial::new(run, layer, shape, before(layer, shape), LONG);
    trial.create(false)?;
    for call in &calls {
        trial.call(call, false)?;
    }
    let bytes = trial.record().borrow().bytes().to_vec();
    let shows = Some(trial.tables().present().clone());
    Ok(Before { bytes, shows })
}

/// The first calls of a long day, every operation of which fails once.
pub fn failures(
    run: &mut Run,
    layer: &dyn Layer,
    seed: u64,
    ways: &[(Doing, How)],
) -> Result<(), Wrong> {
    run.forget();
    let mut day = day::long(seed);
    day.calls.truncate(40);
    failures::each(run, layer, &day, &before(layer, &day.shape), ways)
}

/// Letters of a short day.
const LONGEST: usize = 5;
/// How many of each are made, on either layer.
const CREATES: u64 = 25;
const LONG_DAYS: u64 = 150;
const FAILING_DAYS: u64 = 25;

/// How operations fail. A drive in Rust is not told of short writes.
const IN_RUST: [(Doing, How); 3] = [
    (Doing::Read, How::Error),
    (Doing::Write, How::Error),
    (Doing::Flush, How::Error),
];
pub const IN_C: [(Doing, How); 8] = [
    (Doing::Read, How::Error),
    (Doing::Write, How::Error),
    (Doing::Flush, How::Error),
    (Doing::Write, How::Short(0)),
    (Doing::Write, How::Short(512)),
    (Doing::Write, How::Short(700)),
    (Doing::Write, How::Refused),
    (Doing::Write, How::Untold),
];

/// How the layer in C is used: by path with AIO and a mapping, without the one and without the
/// other, on a device, and on a drive of the program's own.
fn in_c() -> [InC; 5] {
    let plain = Setting::default();
    let no_aio = Setting {
        no_aio: true,
        partition: true,
        ..plain
    };
    let short_reads = Setting {
        short_reads: true,
        tells_blocks: true,
        ..plain
    };
    let device = Setting {
        device: true,
        no_mmap: true,
        tells_blocks: true,
        ..plain
    };
    let ways = [
        (Door::Path(plain), false),
        (Door::Path(no_aio), false),
        (Door::Path(short_reads), true),
        (Door::Path(device), false),
        (Door::Own, false),
    ];
    ways.map(|(door, unmapped)| InC {
        calls: &shim::SHIPPED,
        door,
        unmapped,
    })
}

/// A run on both layers.
pub struct Both {
    seed: u64,
    pub rust: Run,
    pub c: Run,
    /// Long days of which both layers have recorded and foretold the same, and seeds of others.
    pub alike: u64,
    pub unlike: Vec<u64>,
}

impl Both {
    pub fn new(seed: u64) -> Both {
        system::with(|system| system.seed(seed));
        Both {
            seed,
            rust: Run::new(seed),
            c: Run::new(seed),
            alike: 0,
            unlike: Vec::new(),
        }
    }

    /// Seeds of a part of the run, each with a way to use the layer in C.
    fn seeds(&self, part: u64, count: u64) -> Vec<(u64, InC)> {
        let mut rng = Rng::part(self.seed, part);
        let ways = in_c().into_iter().cycle();
        (0..count).map(|_| rng.next()).zip(ways).collect()
    }

    pub fn work(&mut self) -> Result<(), Wrong> {
        for (seed, in_c) in self.seeds(1, CREATES) {
            create(&mut self.rust, &Ready(Recorded), seed)?;
            create(&mut self.c, &in_c, seed)?;
        }
        short_days(&mut self.rust, &Ready(Recorded), LONGEST)?;
        for (i, in_c) in in_c().iter().enumerate() {
            let longest = if i == 0 { LONGEST } else { LONGEST - 2 };
            short_days(&mut self.c, in_c, longest)?;
        }
        for (seed, in_c) in self.seeds(2, LONG_DAYS) {
            let rust = long(&mut self.rust, &Ready(Recorded), seed, LONG)?;
            let c = long(&mut self.c, &in_c, seed, LONG)?;
            match same(&rust, &c) {
                true => self.alike += 1,
                false => self.unlike.push(seed),
            }
        }
        for (seed, in_c) in self.seeds(3, FAILING_DAYS) {
            failures(&mut self.rust, &Ready(Recorded), seed, &IN_RUST)?;
            failures(&mut self.c, &in_c, seed, &IN_C)?;
        }
        Ok(())
    }
}

/// All days of so many letters, and of one more where there are fewer to choose from.
fn short_days(run: &mut Run, layer: &dyn Layer, longest: usize) -> Result<(), Wrong> {
    use Begin::{Created, Formatted};
    let (wide, narrow) = (tiny(10, Room::Make), tiny(8, Room::Commit));
    let widest = tiny(12, Room::Make);
    short(run, layer, &ALL, longest, &wide, Formatted, SHORT)?;
    short(run, layer, &ALL, longest - 1, &narrow, Created, SHORT)?;
    short(run, layer, &FAR, longest + 1, &wide, Created, SHORT)?;
    short(run, layer, &STEPS, longest + 1, &wide, Created, SHORT)?;
    short(run, layer, &EMPTIED, longest + 1, &widest, Formatted, SHORT)
}

/// Both layers bring the same writes and flushes to the drive, and foretell the same. Only a file
/// takes a length.
fn same((rust, rust_foretold): &Made, (c, c_foretold): &Made) -> bool {
    let c = c.iter().filter(|event| !matches!(event, Event::Length(_)));
    rust.iter().eq(c) && rust_foretold == c_foretold
}
