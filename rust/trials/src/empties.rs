//! How often calls came to empty pages, which M passes over: to rescinds on
//! either side of a snapshot, to migrations with such pages, and to what a
//! start then shows.

use crate::call::{Answer, Call};
use crate::cuts::add_all;
use model::blocks::{get, Block};
use model::generation::{Changes, Committed};
use model::geometry::{Place, BLOCK};
use model::{Kind, Model, Phase, Store};
use std::collections::BTreeSet;

/// What calls must come to, by its place in `CASES`.
#[derive(Clone, Copy)]
enum Case {
    RescindWaiting,
    RescindPagedOut,
    RescindPending,
    RescindCommitted,
    BeforeCopy,
    BeforeHeader,
    NoneLeft,
    ThreeAlive,
    ThreeAliveOnNine,
    FullNow,
    FullPending,
    CopyEmptyNow,
    CopyEmptyPending,
    ByPotAtHome,
    OverFiller,
    OverOldBytes,
    StartPassed,
    StartToPass,
    StartBetween,
    FoundEmpty,
    FoundWritten,
}

const CASES: [&str; 21] = [
    "rescind of a page that waits",
    "rescind of a page paged out since the snapshot",
    "rescind of a page of the pending generation",
    "rescind of a page that must still go home",
    "page passed over before an M",
    "page passed over before H, which does not wait",
    "20 with only pages left that are passed over",
    "page passed over while three generations live",
    "page passed over while three generations live on A 9",
    "page passed over that is full in the current generation alone",
    "page passed over that is full in the pending generation",
    "M of a page that is empty in the current generation and full in the pending one",
    "M of a page that is empty in the pending generation",
    "page passed over by its pot at home",
    "page passed over, at home bytes from before the format",
    "page passed over, at home bytes it had once",
    "start amid migration behind a page passed over",
    "start amid migration before a page passed over",
    "start amid migration between pages passed over",
    "page passed over found empty by a start, other bytes at home",
    "page passed over and written again found by a start, other bytes at home",
];

/// What doctored cards must come to by themselves.
const DOCTORED: [Case; 4] = [
    Case::BeforeCopy,
    Case::BeforeHeader,
    Case::NoneLeft,
    Case::ByPotAtHome,
];

/// What advances have done to the home frames since the format.
#[derive(Default)]
pub struct Home {
    copied: BTreeSet<usize>,
    /// Passed over, and not copied since.
    passed: BTreeSet<usize>,
}

/// How a start finds a migration that it ends.
#[derive(Clone, Copy)]
pub struct Amid {
    /// Were pages passed over?
    passed: bool,
    /// Are there some, and a frame to copy, among the entries left?
    to_pass: bool,
}

/// What the pending snapshot shows of a frame; with none pending, what a start
/// would.
pub fn marked(store: &Store, card: &[u8], frame: usize) -> Block {
    let current = Changes::none(store.current.first);
    let without = Store {
        current,
        ..store.clone()
    };
    without.newest(card, frame)
}

/// Is a page's flag set in that pot?
pub fn flag(pot: &Block, place: &Place) -> bool {
    pot[place.at + 4] & 1 == 1
}

fn line((case, times): (&str, u64)) -> String {
    format!("  {case}: {times}\n")
}

/// The entries that the last M, or the flush before H, has passed over.
fn just_passed(committed: &Committed, kind: Kind, over: &[usize]) -> Vec<usize> {
    let copied = usize::from(kind == Kind::M);
    let before = committed.migrated.saturating_sub(copied);
    let frames = committed.entries[..before].iter().map(|entry| entry.0);
    let passed = frames.rev().take_while(|frame| over.contains(frame));
    passed.collect()
}

/// How a start would find the migration; none is under way before its first M
/// and after its last.
pub fn amid(model: &Model) -> Option<Amid> {
    let committed = model.store.as_ref()?.committed.as_ref()?;
    let over = model.passed_over();
    committed.to_migrate(&over)?;
    let (done, left) = committed.entries.split_at(committed.migrated);
    let passed = |entry: &(usize, usize)| over.contains(&entry.0);
    (!done.is_empty()).then(|| Amid {
        passed: done.iter().any(passed),
        to_pass: left.iter().any(passed),
    })
}

#[derive(Clone, Default)]
pub struct Empties([u64; CASES.len()]);

impl Empties {
    fn count(&mut self, case: Case, seen: bool) {
        self.0[case as usize] += u64::from(seen);
    }

    /// A call that was made, with the model after it.
    pub fn count_made(&mut self, call: &Call, answer: &Answer, model: &Model, home: &mut Home) {
        let Some(store) = &model.store else {
            return;
        };
        match (call, answer) {
            (Call::Rescind { oid, .. }, Answer::Done) => self.count_rescind(*oid, model, store),
            (Call::Advance, Answer::Wrote(Kind::M, frame)) => {
                self.count_passed(Kind::M, model, store, home);
                self.count_copied(*frame, model, store, home);
            }
            (Call::Advance, Answer::Wrote(Kind::F, _)) if store.phase == Phase::Flushed => {
                self.count_passed(Kind::F, model, store, home);
            }
            (Call::Advance, Answer::Refused(20)) => {
                let committed = store.committed.as_ref();
                let left = committed.is_some_and(|c| c.migrated < c.entries.len());
                self.count(Case::NoneLeft, left);
            }
            _ => {}
        }
    }

    /// A rescind changes the pot, so the page is still where it was.
    fn count_rescind(&mut self, oid: u32, model: &Model, store: &Store) {
        let Ok(Place { page, .. }) = store.geometry.place(oid) else {
            return;
        };
        let waits = store.current.waiting_bytes(page).is_some();
        let changed = store.current.holds(page);
        let pending = store.pending.as_ref();
        let to_copy = |committed: &Committed| {
            let mut left = committed.entries.iter().skip(committed.migrated);
            left.any(|entry| entry.0 == page) && !model.passed_over().contains(&page)
        };
        let committed = store.committed.as_ref();
        self.count(Case::RescindWaiting, waits);
        self.count(Case::RescindPagedOut, changed && !waits);
        self.count(
            Case::RescindPending,
            pending.is_some_and(|pending| pending.changes.holds(page)),
        );
        self.count(Case::RescindCommitted, committed.is_some_and(to_copy));
    }

    fn count_passed(&mut self, kind: Kind, model: &Model, store: &Store, home: &mut Home) {
        let Some(committed) = &store.committed else {
            return;
        };
        let three = store.pending.is_some() && store.current.e() > 0;
        for frame in just_passed(committed, kind, &model.passed_over()) {
            self.count(Case::BeforeCopy, kind == Kind::M);
            self.count(Case::BeforeHeader, kind == Kind::F);
            self.count(Case::ThreeAlive, three);
            self.count(Case::ThreeAliveOnNine, three && store.geometry.area == 9);
            self.count_views(frame, model, store, committed);
            let other = get(&model.card, frame) != [0; BLOCK];
            let copied = home.copied.contains(&frame);
            self.count(Case::OverFiller, other && !copied);
            self.count(Case::OverOldBytes, other && copied);
            home.passed.insert(frame);
        }
    }

    /// What other views of its pot say of a page passed over.
    fn count_views(&mut self, frame: usize, model: &Model, store: &Store, committed: &Committed) {
        let Some(place) = store.geometry.page_at(frame) else {
            return;
        };
        let newest = store.newest(&model.card, place.pot);
        let marked = marked(store, &model.card, place.pot);
        self.count(
            Case::FullNow,
            !flag(&newest, &place) && flag(&marked, &place),
        );
        self.count(Case::FullPending, !flag(&marked, &place));
        let in_directory = committed.block_of(place.pot).is_some();
        self.count(Case::ByPotAtHome, !in_directory);
    }

    fn count_copied(&mut self, frame: usize, model: &Model, store: &Store, home: &mut Home) {
        home.passed.remove(&frame);
        home.copied.insert(frame);
        let Some(place) = store.geometry.page_at(frame) else {
            return;
        };
        let newest = store.newest(&model.card, place.pot);
        let marked = marked(store, &model.card, place.pot);
        let pending = store.pending.is_some();
        let empty_now = pending && flag(&newest, &place) && !flag(&marked, &place);
        self.count(Case::CopyEmptyNow, empty_now);
        self.count(Case::CopyEmptyPending, flag(&marked, &place));
    }

    /// A start that was done.
    pub fn count_start(&mut self, amid: Amid) {
        self.count(Case::StartPassed, amid.passed);
        self.count(Case::StartToPass, amid.to_pass);
        self.count(Case::StartBetween, amid.passed && amid.to_pass);
    }

    /// A look at a page after a start, which was as it should be. Other bytes
    /// at home would have been seen.
    pub fn count_found(&mut self, oid: u32, model: &Model, home: &Home) {
        let store = model.store.as_ref();
        let place = store.and_then(|store| store.geometry.place(oid).ok());
        let (Some(store), Some(place)) = (store, place) else {
            return;
        };
        if !home.passed.contains(&place.page) {
            return;
        }
        let at_home = get(&model.card, place.page);
        if flag(&store.newest(&model.card, place.pot), &place) {
            self.count(Case::FoundEmpty, at_home != [0; BLOCK]);
        } else {
            let page = store.newest(&model.card, place.page);
            self.count(Case::FoundWritten, at_home != page);
        }
    }

    pub fn add(&mut self, other: &Empties) {
        add_all(&mut self.0, &other.0);
    }

    /// Each case that lists must come to, and how often they did.
    fn of_lists(&self) -> impl Iterator<Item = (&'static str, u64)> + '_ {
        CASES.into_iter().zip(self.0)
    }

    /// The same of doctored cards.
    fn of_doctored(&self) -> impl Iterator<Item = (&'static str, u64)> + '_ {
        let cases = DOCTORED.map(|case| case as usize);
        cases.into_iter().map(|case| (CASES[case], self.0[case]))
    }

    pub fn missing_from_lists(&self) -> Vec<String> {
        let missing = self.of_lists().filter(|(_, times)| *times == 0);
        missing.map(|(case, _)| case.to_string()).collect()
    }

    pub fn missing_from_doctored(&self) -> Vec<String> {
        let missing = self.of_doctored().filter(|(_, times)| *times == 0);
        missing
            .map(|(case, _)| format!("doctored: {case}"))
            .collect()
    }

    pub fn lists_table(&self) -> String {
        self.of_lists().map(line).collect()
    }

    pub fn doctored_table(&self) -> String {
        self.of_doctored().map(line).collect()
    }
}
