//! How often each number was answered by each call.

use crate::borders::Borders;
use crate::call::{Answer, Call, NAMES};
use crate::cuts::Cuts;
use crate::directories::Directories;
use crate::doctored::broken::sentences;
use crate::empties::Empties;
use crate::forecasts::Forecasts;
use crate::limits::Limits;
use model::Kind;
use std::collections::BTreeSet;

/// The numbers each call can answer, in the order that they are asked in; the
/// calls in that of `Call::row`.
const POSSIBLE: [&[u32]; 10] = [
    &[0, 3, 5],
    &[0, 1, 3, 4, 5, 6, 7, 8],
    &[0, 1, 2, 3, 21, 9],
    &[0, 1, 2, 3, 21, 9, 10, 11],
    &[0, 1, 2, 3, 21, 9, 10, 11, 12, 13, 14],
    &[0, 1, 2, 3, 21, 9, 10, 15, 12, 13, 14],
    &[0, 1, 2, 3, 16, 17, 18],
    &[0, 1, 2, 3, 28, 19],
    &[0, 1, 2, 3, 20],
    &[0, 1, 2, 3],
];

const START: usize = 1;

/// Numbers that only doctored records and cards bring about.
fn needs_doctoring(row: usize, number: u32) -> bool {
    number == 2 || (row == START && (6..=8).contains(&number))
}

#[derive(Clone, Default)]
pub struct Tally {
    answers: [[u64; 29]; 10],
    kinds: [u64; 6],
    /// The most entries of a directory.
    pub fullest: usize,
    pub lists: u64,
    pub cuts: Cuts,
    pub borders: Borders,
    pub limits: Limits,
    pub directories: Directories,
    pub empties: Empties,
    pub forecasts: Forecasts,
    /// Blocks of the largest card that was started.
    largest: usize,
    /// The lengths of memory that were lent to a start, in frames.
    frames: BTreeSet<usize>,
    /// Keys and reads that look whether a page is what the book says.
    pub looks: u64,
    pub doctored_records: u64,
    pub doctored_cards: u64,
    /// The sentences of question 2 that a record has broken.
    pub broken: BTreeSet<String>,
}

impl Tally {
    /// Counts an answer; an answer this call cannot give is an error.
    pub fn count(&mut self, call: &Call, answer: &Answer) -> Result<(), String> {
        let row = call.row();
        let number = answer.number().filter(|n| POSSIBLE[row].contains(n));
        let Some(number) = number else {
            return Err(format!("{} answers {answer}", call.name()));
        };
        self.answers[row][number as usize] += 1;
        if let (Call::Advance, Answer::Wrote(kind, _)) = (call, answer) {
            self.kinds[*kind as usize] += 1;
        }
        Ok(())
    }

    /// A start that was done.
    pub fn count_start(&mut self, blocks: usize, frames: usize) {
        self.largest = self.largest.max(blocks);
        self.frames.insert(frames);
    }

    pub fn calls(&self) -> u64 {
        self.answers.iter().flatten().sum()
    }

    pub fn add(&mut self, other: &Tally) {
        let answers = self.answers.iter_mut().flatten();
        for (sum, more) in answers.zip(other.answers.iter().flatten()) {
            *sum += more;
        }
        for (sum, more) in self.kinds.iter_mut().zip(other.kinds) {
            *sum += more;
        }
        self.largest = self.largest.max(other.largest);
        self.frames.extend(&other.frames);
        self.fullest = self.fullest.max(other.fullest);
        self.lists += other.lists;
        self.cuts.add(&other.cuts);
        self.borders.add(&other.borders);
        self.limits.add(&other.limits);
        self.directories.add(&other.directories);
        self.empties.add(&other.empties);
        self.forecasts.add(&other.forecasts);
        self.looks += other.looks;
        self.doctored_records += other.doctored_records;
        self.doctored_cards += other.doctored_cards;
        self.broken.extend(other.broken.iter().cloned());
    }

    /// Numbers that lists can bring about and did not.
    pub fn missing_from_lists(&self) -> Vec<String> {
        let mut missing = self.missing(|row, number| !needs_doctoring(row, number));
        for kind in [Kind::P, Kind::D, Kind::T, Kind::M, Kind::H, Kind::F] {
            if self.kinds[kind as usize] == 0 {
                missing.push(format!("advance {kind:?}"));
            }
        }
        if self.largest < 65_536 {
            missing.push("a card of 65,536 blocks".into());
        }
        for frames in [4, 64].iter().filter(|n| !self.frames.contains(n)) {
            missing.push(format!("a memory of {frames} frames"));
        }
        missing.extend(self.borders.missing());
        missing.extend(self.limits.missing());
        missing.extend(self.directories.missing());
        missing.extend(self.cuts.missing());
        missing.extend(self.empties.missing_from_lists());
        missing.extend(self.forecasts.missing_from_lists());
        missing
    }

    /// Numbers that only doctoring brings about and that did not come, sentences
    /// that no record has broken, empty pages that no card had, and too few
    /// forecasts.
    pub fn missing_from_doctored(&self) -> Vec<String> {
        let mut missing = self.missing(needs_doctoring);
        let whole = sentences().filter(|name| !self.broken.contains(name));
        missing.extend(whole.map(|name| format!("broken: {name}")));
        missing.extend(self.empties.missing_from_doctored());
        missing.extend(self.forecasts.missing_from_doctored());
        missing
    }

    fn missing(&self, wanted: impl Fn(usize, u32) -> bool) -> Vec<String> {
        let mut missing = Vec::new();
        for (row, numbers) in POSSIBLE.iter().enumerate() {
            for number in numbers.iter().filter(|number| wanted(row, **number)) {
                if self.answers[row][*number as usize] == 0 {
                    missing.push(format!("{} {number}", NAMES[row]));
                }
            }
        }
        missing
    }

    /// One line a call: each number it can answer, and how often it did.
    pub fn table(&self) -> String {
        let mut lines = String::new();
        for (row, numbers) in POSSIBLE.iter().enumerate() {
            lines += &format!("  {:<9}", NAMES[row]);
            for number in *numbers {
                lines += &format!(" {number}:{}", self.answers[row][*number as usize]);
            }
            lines.push('\n');
        }
        let [p, d, t, m, h, f] = self.kinds;
        lines += &format!("  advance made P {p}, D {d}, T {t}, M {m}, H {h}, F {f}");
        lines + &format!("; fullest directory {} entries\n", self.fullest)
    }
}
