//! Random lists: valid, refused and absurd calls, cuts and doctored cards.

mod absurd;
mod empty;
mod full;

use crate::call::Call;
use crate::cards::{self, Size};
use crate::drive::{Down, Left};
use crate::list::{Lending, List, Restart, Step};
use crate::rng::Rng;
use model::geometry::BLOCK;
use model::Geometry;

/// How likely each call is: key, read, write, rescind, snapshot, page-out,
/// advance, forecast.
type Weights = [usize; 8];

const WEIGHTS: [Weights; 7] = [
    // A steady gate.
    [4, 14, 34, 8, 6, 8, 26, 3],
    // Much is changed, little is committed: full directories and memory.
    [2, 8, 56, 10, 2, 18, 4, 2],
    // Many commits.
    [2, 8, 22, 6, 12, 4, 46, 4],
    // A snapshot waits long while its frames change again.
    [3, 12, 44, 14, 9, 10, 8, 4],
    // Keys are rescinded all the time.
    [6, 14, 18, 30, 6, 8, 18, 3],
    // Memory is paged out as soon as it fills.
    [2, 8, 36, 6, 5, 32, 11, 3],
    FILLING,
];

/// Hundreds of changes before a snapshot.
const FILLING: Weights = [1, 4, 56, 3, 0, 36, 0, 1];

/// What a list is drawn from.
pub struct Mix {
    rng: Rng,
    geometry: Geometry,
    weights: Weights,
    /// OIDs that most calls name.
    hot: Vec<u32>,
    /// OIDs at the borders of ranges and runs, in them or not.
    borders: Vec<u32>,
    most_frames: usize,
    /// Of a thousand steps, how many are cuts and how many absurd.
    cuts: usize,
    absurd: usize,
    /// Of a thousand steps, how many are commits, restarts and the like.
    turns: usize,
    /// Is there a sweep before each commit, and are there advances for it?
    sweeping: bool,
}

/// The list of that seed.
pub fn list(seed: u64) -> List {
    let mut rng = Rng::new(seed);
    let size = cards::size(&mut rng);
    list_of_size(rng, size)
}

pub fn list_of_size(mut rng: Rng, size: Size) -> List {
    let geometry = cards::random(&mut rng, size);
    let filler = rng.pick(&[0, 1]) * rng.next();
    let count = match size {
        Size::Small => rng.between(100, 800),
        Size::Middle => rng.between(100, 800),
        Size::Wide => rng.between(500, 2500),
        Size::Full | Size::Large | Size::Largest => rng.between(100, 300),
    };
    let mut mix = Mix::new(rng, geometry.clone(), size);
    let mut steps = Vec::new();
    if size == Size::Full {
        mix.full_generations(&mut steps);
    }
    steps.extend(mix.steps(count));
    if size == Size::Largest {
        steps.extend(mix.one_block_more());
    }
    steps.extend(mix.past_limits());
    List {
        geometry,
        frames: mix.frames(),
        filler,
        steps,
    }
}

/// A few calls and cuts, and a commit, for a card that no list made.
pub fn some_steps(rng: Rng, geometry: Geometry) -> Vec<Step> {
    let mut mix = Mix::new(rng, geometry, Size::Small);
    let mut steps = Vec::new();
    if mix.rng.chance(500) {
        mix.advances(&mut steps);
    }
    steps.extend([mix.step(), mix.step()]);
    mix.commit(&mut steps);
    steps.extend([mix.step(), mix.step(), mix.step()]);
    steps
}

impl Mix {
    fn new(mut rng: Rng, geometry: Geometry, size: Size) -> Mix {
        let wide = matches!(size, Size::Wide | Size::Full);
        let hot = match size {
            Size::Small => rng.between(1, 6),
            Size::Middle | Size::Large | Size::Largest => rng.between(2, 40),
            Size::Wide | Size::Full => rng.between(40, 400),
        };
        let weights = rng.pick(&WEIGHTS);
        let frames = rng.pick(&[4, 6, 8, 16, 64]);
        let cuts = match size {
            Size::Small | Size::Middle => rng.pick(&[5, 60, 150]),
            Size::Wide | Size::Full => rng.pick(&[0, 1, 3]),
            Size::Large | Size::Largest => rng.pick(&[0, 12]),
        };
        let mut mix = Mix {
            weights: if wide { FILLING } else { weights },
            borders: borders(&geometry),
            hot: Vec::new(),
            most_frames: if wide { 64 } else { frames },
            cuts,
            absurd: rng.pick(&[0, 40, 100]),
            turns: if wide { 3 } else { 70 },
            sweeping: wide,
            geometry,
            rng,
        };
        mix.hot = (0..hot).map(|_| mix.any_oid()).collect();
        mix
    }

    fn steps(&mut self, count: usize) -> Vec<Step> {
        let mut steps = Vec::new();
        self.flush(&mut steps);
        while steps.len() < count {
            if self.rng.chance(self.turns) {
                self.turn(&mut steps);
            } else {
                let step = self.step();
                if let Step::Cut { .. } = step {
                    self.unflushed(&mut steps);
                }
                steps.push(step);
            }
            if let Some(Step::Cut { .. }) = steps.last() {
                self.flush(&mut steps);
            }
        }
        steps
    }

    /// After most starts the flush that is due is made at once: else page-outs
    /// are refused, and the next cut finds no writes.
    fn flush(&mut self, steps: &mut Vec<Step>) {
        if self.rng.chance(750) {
            steps.push(Step::plain(Call::Advance));
        }
    }

    /// A few block writes for a cut to find.
    fn unflushed(&mut self, steps: &mut Vec<Step>) {
        if self.rng.chance(500) {
            self.write_and(Call::Snapshot, steps);
            return self.burst(Call::Advance, 4, steps);
        }
        for _ in 0..self.rng.between(1, 3) {
            self.write_and(Call::PageOut, steps);
        }
    }

    fn turn(&mut self, steps: &mut Vec<Step>) {
        match self.rng.below(18) {
            0..3 => self.advances(steps),
            3..5 => self.burst(Call::PageOut, 6, steps),
            5 => self.sweep(steps),
            6..10 => self.commit(steps),
            10..14 => self.cut_commit(steps),
            14..16 => self.empty_pages(steps),
            16 => self.doctored(steps),
            _ => self.start_or_format(steps),
        }
    }

    /// Writes to OIDs in a row, rising or falling, paged out batch by batch: the
    /// directory fills.
    fn sweep(&mut self, steps: &mut Vec<Step>) {
        let range = self.rng.pick(&self.geometry.ranges);
        let batch = self.rng.between(1, 32);
        let falling = self.rng.chance(500);
        for i in 0..self.hot.len() {
            let r = i as u32 % range.pages;
            let r = if falling { range.pages - 1 - r } else { r };
            steps.push(Step::plain(self.write(range.first + r)));
            if i % batch == batch - 1 {
                repeat(Call::PageOut, batch + 1, steps);
            }
        }
    }

    /// A call after a write, so that there is something for it. Some pages are
    /// emptied at once.
    fn write_and(&mut self, call: Call, steps: &mut Vec<Step>) {
        let (oid, count) = (self.oid(), 0);
        steps.push(Step::plain(self.write(oid)));
        if self.rng.chance(200) {
            steps.push(Step::plain(Call::Rescind { oid, count }));
        }
        steps.push(Step::plain(call));
    }

    /// A snapshot, and advances that may end anywhere. The next directory may
    /// fill before them.
    fn commit(&mut self, steps: &mut Vec<Step>) {
        if self.sweeping {
            self.sweep(steps);
        }
        self.write_and(Call::Snapshot, steps);
        if self.sweeping && self.rng.chance(500) {
            self.sweep(steps);
        }
        self.advances(steps);
    }

    fn advances(&mut self, steps: &mut Vec<Step>) {
        let most = if self.sweeping { 400 } else { 14 };
        self.burst(Call::Advance, most, steps);
    }

    fn burst(&mut self, call: Call, most: usize, steps: &mut Vec<Step>) {
        repeat(call, self.rng.between(2, most), steps);
    }

    fn step(&mut self) -> Step {
        if self.rng.chance(self.cuts) {
            return self.cut();
        }
        let mut call = self.call();
        let mut lending = Lending::default();
        if self.rng.chance(self.absurd) {
            match self.rng.below(4) {
                0 => lending.memory = Some(self.wrong_memory()),
                1 => lending.card = Some(self.wrong_card()),
                _ => self.make_absurd(&mut call),
            }
            if self.rng.chance(100) {
                lending.memory = Some(self.wrong_memory());
            }
        }
        Step::Call { call, lending }
    }

    fn frames(&mut self) -> usize {
        self.rng.between(4, self.most_frames)
    }

    /// A call whose arguments are as they should be.
    fn call(&mut self) -> Call {
        let mut at = self.rng.below(self.weights.iter().sum());
        let mut row = 0;
        while at >= self.weights[row] {
            at -= self.weights[row];
            row += 1;
        }
        let oid = self.oid();
        let count = 0;
        match row {
            0 => Call::Key { oid },
            1 => Call::Read {
                oid,
                count,
                length: BLOCK,
            },
            2 => self.write(oid),
            3 => Call::Rescind { oid, count },
            4 => Call::Snapshot,
            5 => Call::PageOut,
            6 => Call::Advance,
            _ => Call::Forecast,
        }
    }

    fn write(&mut self, oid: u32) -> Call {
        let (at, length) = match self.rng.below(8) {
            0 => (0, BLOCK),
            1 => (BLOCK - 1, 1),
            2 => (self.rng.between(0, BLOCK), 0),
            _ => return self.change(oid),
        };
        self.write_at(oid, at, length)
    }

    /// A write of a byte or more.
    fn change(&mut self, oid: u32) -> Call {
        let at = self.rng.below(BLOCK);
        let length = self.rng.between(1, BLOCK - at);
        self.write_at(oid, at, length)
    }

    fn write_at(&mut self, oid: u32, at: usize, length: usize) -> Call {
        Call::Write {
            oid,
            count: 0,
            at,
            length,
            fill: self.rng.next(),
        }
    }

    fn oid(&mut self) -> u32 {
        match self.rng.below(20) {
            0 => self.any_oid(),
            1 => self.rng.pick(&self.borders),
            _ => self.rng.pick(&self.hot),
        }
    }

    /// Any OID of the ranges.
    fn any_oid(&mut self) -> u32 {
        let range = self.rng.pick(&self.geometry.ranges);
        range.first + self.rng.below(range.pages as usize) as u32
    }

    fn cut(&mut self) -> Step {
        let call = match self.rng.below(10) {
            0 => None,
            1 => Some(self.call()),
            2..4 => Some(Call::PageOut),
            _ => Some(Call::Advance),
        };
        self.cut_in(call)
    }

    /// A commit that a cut ends, mostly in a block write; page-outs come
    /// between its advances, and before some cuts a start that finds it half
    /// made.
    fn cut_commit(&mut self, steps: &mut Vec<Step>) {
        self.write_and(Call::Snapshot, steps);
        for _ in 0..self.rng.below(10) {
            steps.push(Step::plain(Call::Advance));
            if self.rng.chance(150) {
                self.write_and(Call::PageOut, steps);
            }
        }
        if self.rng.chance(200) {
            steps.push(Step::plain(Call::Start));
        }
        steps.push(self.cut_in(Some(Call::Advance)));
    }

    fn cut_in(&mut self, call: Option<Call>) -> Step {
        let seed = self.rng.next();
        let left = [Left::Old, Left::New, Left::Any(seed), Left::Mixed(seed)];
        let any = Down::Any(self.rng.next());
        Step::Cut {
            call,
            down: self.rng.pick(&[Down::All, any.clone(), any]),
            left: self.rng.pick(&left),
            restart: Restart {
                frames: self.frames(),
                lost: self.rng.pick(&[0, seed]),
                again: self.rng.chance(100),
            },
        }
    }

    /// Counts and commit numbers at their limits, flags with all bits.
    fn doctored(&mut self, steps: &mut Vec<Step>) {
        let near = u32::MAX - self.rng.below(3) as u32;
        match self.rng.below(5) {
            0..2 => steps.push(Step::DoctorPot {
                oid: self.oid(),
                count: self.rng.pick(&[0, 255, 65_535, near, near]),
                flags: self.rng.next() as u8,
            }),
            2 => self.emptied_at_home(steps),
            _ => self.last_commits(near, steps),
        }
    }

    /// Commits up to the last number, or near it.
    fn last_commits(&mut self, near: u32, steps: &mut Vec<Step>) {
        steps.push(Step::DoctorCommit(near));
        for _ in 0..3 {
            self.commit(steps);
        }
        // From here on there can be commits again.
        steps.push(Step::DoctorCommit(self.rng.pick(&[1, 1000])));
    }

    /// A format, or a start that is most often refused, then one that is not.
    fn start_or_format(&mut self, steps: &mut Vec<Step>) {
        let mut lending = Lending::default();
        let call = match self.rng.below(4) {
            0 => {
                lending.memory = Some(self.wrong_memory());
                Call::Start
            }
            1 => {
                lending.card = Some(self.wrong_card());
                Call::Start
            }
            2 => {
                lending.memory = Some(self.frames() * BLOCK);
                Call::Start
            }
            _ => {
                if self.rng.chance(300) {
                    lending.card = Some(self.wrong_card());
                }
                self.format()
            }
        };
        let starts = call == Call::Start;
        steps.push(Step::Call { call, lending });
        if starts {
            for _ in 0..self.rng.below(8) {
                steps.push(self.step());
            }
            steps.push(Step::plain(Call::Start));
        }
    }
}

/// First and last OIDs of ranges and their neighbours, the two OIDs where a
/// run ends, and the ends of all numbers.
fn borders(geometry: &Geometry) -> Vec<u32> {
    let mut borders = vec![0, u32::MAX];
    for range in &geometry.ranges {
        let last = range.first + (range.pages - 1);
        borders.extend([range.first, last]);
        borders.extend([range.first.wrapping_sub(1), last.wrapping_add(1)]);
        borders.extend([range.first.wrapping_add(101), range.first.wrapping_add(102)]);
    }
    borders
}

fn repeat(call: Call, times: usize, steps: &mut Vec<Step>) {
    steps.extend(std::iter::repeat_n(Step::plain(call), times));
}
