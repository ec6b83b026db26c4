//! How often forecasts came to each part of their sum, and how often what they
//! foretold was followed to its end.

use crate::call::{Answer, Call, NAMES};
use crate::cuts::add_all;
use crate::foretold::Foretold;
use crate::limits::FULL;
use model::generation::directory_blocks;
use model::{Phase, Store};

/// What forecasts must come to, by its place in `CASES`.
#[derive(Clone, Copy)]
enum Case {
    Nothing,
    OwedAlone,
    Owed,
    Writing,
    Flushed,
    Waiting,
    CurrentWaiting,
    Directory,
    DirectoryInPart,
    Trailer,
    Home,
    HomeInPart,
    PassedOver,
    OnlyPassedOver,
}

const CASES: [&str; 14] = [
    "none pending: 0",
    "none pending, a flush due: 1",
    "pending, a flush due first",
    "pending, the flush before H to come",
    "pending, the flush before H made",
    "pending frames wait",
    "current frames wait beside a pending snapshot",
    "directory blocks are not down",
    "directory blocks are down in part",
    "the trailer alone is not down",
    "M writes are left",
    "M writes are left, some are made",
    "M writes are left, and pages that are passed over",
    "of M only pages are left that are passed over",
];

/// What a call that leaves a forecast was answered.
const ANSWERED: [&str; 2] = ["done", "refused"];

/// A commit must be counted down from so many advances or more, as where a full
/// generation migrates in it.
const FAR: usize = FULL;
/// So many forecasts must be played, and so many of doctored records counted
/// down.
const LEAST_PLAYED: u64 = 20_000;
const LEAST_DOCTORED: u64 = 5_000;

#[derive(Clone, Default)]
pub struct Forecasts {
    cases: [u64; CASES.len()],
    /// Calls that leave the forecast of a pending snapshot as it is.
    left: [[u64; 2]; NAMES.len()],
    /// Forecasts of a snapshot that were counted down to 0, and the farthest.
    countdowns: u64,
    farthest: usize,
    /// Forecasts of a snapshot whose advances were made at once, by a copy.
    pub played: u64,
    /// Doctored records of which a snapshot's forecast was counted down.
    doctored: u64,
}

/// Can a call that is answered so leave a forecast as it is?
fn can_leave(row: usize, refused: usize) -> bool {
    match NAMES[row] {
        "start" => false,
        "format" | "snapshot" | "page-out" | "advance" => refused == 1,
        _ => true,
    }
}

impl Forecasts {
    fn count_case(&mut self, case: Case, seen: bool) {
        self.cases[case as usize] += u64::from(seen);
    }

    /// A forecast of that store.
    pub fn count(&mut self, advances: usize, store: &Store) {
        let Some(pending) = &store.pending else {
            self.count_case(Case::Nothing, advances == 0);
            self.count_case(Case::OwedAlone, advances == 1);
            return;
        };
        let waiting = pending.changes.waiting.len();
        let directory = directory_blocks(pending.changes.e()) - pending.directory_down;
        let trailer = usize::from(!pending.trailer_down);
        let (phase, flushes) = match store.phase {
            Phase::Owed => (Case::Owed, 3),
            Phase::Writing => (Case::Writing, 2),
            Phase::Flushed => (Case::Flushed, 1),
        };
        self.count_case(phase, true);
        self.count_case(Case::Waiting, waiting > 0);
        self.count_case(Case::CurrentWaiting, !store.current.waiting.is_empty());
        self.count_case(Case::Directory, directory > 0);
        self.count_case(
            Case::DirectoryInPart,
            directory > 0 && pending.directory_down > 0,
        );
        self.count_case(Case::Trailer, directory == 0 && trailer > 0);
        let header = 1;
        let home = advances.saturating_sub(waiting + directory + trailer + flushes + header);
        self.count_home(home, store);
    }

    /// So many M writes are left.
    fn count_home(&mut self, home: usize, store: &Store) {
        let Some(committed) = &store.committed else {
            return;
        };
        let passed = committed.entries.len() - committed.migrated > home;
        self.count_case(Case::Home, home > 0);
        self.count_case(Case::HomeInPart, home > 0 && committed.migrated > 0);
        self.count_case(Case::PassedOver, home > 0 && passed);
        self.count_case(Case::OnlyPassedOver, home == 0 && passed);
    }

    /// A call between two forecasts.
    pub fn count_followed(
        &mut self,
        before: Foretold,
        after: Option<Foretold>,
        call: &Call,
        answer: &Answer,
    ) {
        let Some(after) = after else {
            return;
        };
        if before.is_pending() && before.left == after.left {
            self.left[call.row()][usize::from(!answer.is_done())] += 1;
        }
        if before.left == 1 && after.left == 0 && before.from > 1 {
            self.countdowns += 1;
            self.farthest = self.farthest.max(before.from);
        }
    }

    /// A doctored record, advanced as far as this foretold.
    pub fn count_doctored(&mut self, foretold: Foretold) {
        self.doctored += u64::from(foretold.from > 1);
    }

    pub fn add(&mut self, other: &Forecasts) {
        add_all(&mut self.cases, &other.cases);
        add_all(self.left.as_flattened_mut(), other.left.as_flattened());
        self.countdowns += other.countdowns;
        self.farthest = self.farthest.max(other.farthest);
        self.played += other.played;
        self.doctored += other.doctored;
    }

    pub fn missing_from_lists(&self) -> Vec<String> {
        let cases = CASES.iter().zip(self.cases).filter(|(_, n)| *n == 0);
        let mut missing: Vec<String> = cases.map(|(case, _)| format!("forecast, {case}")).collect();
        for (row, left) in self.left.iter().enumerate() {
            for (refused, answered) in ANSWERED.iter().enumerate() {
                if can_leave(row, refused) && left[refused] == 0 {
                    missing.push(format!("{} {answered} amid a commit", NAMES[row]));
                }
            }
        }
        if self.farthest < FAR {
            missing.push(format!("a commit counted down from {FAR} advances"));
        }
        if self.played < LEAST_PLAYED {
            missing.push(format!("{LEAST_PLAYED} forecasts played"));
        }
        missing
    }

    pub fn missing_from_doctored(&self) -> Option<String> {
        let few = self.doctored < LEAST_DOCTORED;
        few.then(|| format!("{LEAST_DOCTORED} doctored records counted down"))
    }

    pub fn lists_table(&self) -> String {
        let cases = CASES.iter().zip(self.cases);
        let cases: String = cases
            .map(|(case, times)| format!("  forecast, {case}: {times}\n"))
            .collect();
        let rows = NAMES.iter().zip(&self.left).enumerate();
        let left: Vec<String> = rows
            .filter(|(row, _)| can_leave(*row, 1))
            .map(|(_, (name, [done, refused]))| format!("{name} {done} and {refused}"))
            .collect();
        format!(
            "{cases}  done and refused amid a commit, which leaves the forecast: {}\n  \
             {} commits counted down, the farthest from {} advances; {} forecasts played\n",
            left.join(", "),
            self.countdowns,
            self.farthest,
            self.played
        )
    }

    pub fn doctored_table(&self) -> String {
        format!("  {} doctored records counted down\n", self.doctored)
    }
}
