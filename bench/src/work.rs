//! What is measured of every store: commits, what they leave to do, and opens. Of each the time is
//! taken, or what it asks the system for.

use crate::clock::{median, Clock};
use crate::cold;
use crate::counted::{self, Counts};
use crate::store::{bring_home, commit, Page, PageStore};
use crate::subject::{Plan, Subject};
use lane::BLOCK;

/// Commits in a row that are measured together.
const ROW: usize = 4;

#[derive(Clone, Copy)]
pub enum Work {
    /// A commit, up to its answer, in a store whose last one is home.
    Commit(Plan),
    /// One of many commits in a row, each with what the one before it left to do.
    InARow(Plan),
    /// What a commit left to do, while nothing waits for it.
    Settle(Plan),
    /// From a store that was stopped after a commit, which is not home, to the first page read.
    Open(Plan, Stop),
    /// The first commit after such an open.
    First(Plan, Stop),
}

#[derive(Clone, Copy, PartialEq)]
pub enum Stop {
    Kill,
    /// Nothing of its files is in memory afterwards.
    PowerCut,
}

/// What is taken of a piece of work.
type Take<'a, const N: usize> = &'a dyn Fn(&mut dyn FnMut()) -> [f64; N];

/// Nanoseconds.
pub fn time<S: PageStore + ?Sized>(
    clock: &Clock,
    subject: &mut Subject<S>,
    work: Work,
    samples: usize,
) -> f64 {
    middle(subject, work, samples, &|piece| [clock.time(piece).0])[0]
}

/// Flushes, write calls, writes in them, and bytes.
pub fn counts<S: PageStore + ?Sized>(
    subject: &mut Subject<S>,
    work: Work,
    samples: usize,
) -> [f64; 4] {
    middle(subject, work, samples, &|piece| {
        let Counts {
            flushes,
            calls,
            writes,
            bytes,
        } = counted::during(piece);
        [flushes, calls, writes, bytes].map(|n| n as f64)
    })
}

/// The median of some samples, number by number.
fn middle<S: PageStore + ?Sized, const N: usize>(
    subject: &mut Subject<S>,
    work: Work,
    samples: usize,
    take: Take<N>,
) -> [f64; N] {
    bring_home(&mut *subject.store);
    let found: Vec<[f64; N]> = (0..samples).map(|_| sample(subject, work, take)).collect();
    std::array::from_fn(|n| median(samples, |i| found[i][n]))
}

fn sample<S: PageStore + ?Sized, const N: usize>(
    subject: &mut Subject<S>,
    work: Work,
    take: Take<N>,
) -> [f64; N] {
    match work {
        Work::Commit(plan) => {
            let batch = subject.next_batch(plan);
            let found = take(&mut || commit(&mut *subject.store, &batch));
            subject.store.settle();
            found
        }
        Work::InARow(plan) => in_a_row(subject, plan, take),
        Work::Settle(plan) => {
            let batch = subject.next_batch(plan);
            commit(&mut *subject.store, &batch);
            take(&mut || subject.store.settle())
        }
        Work::Open(plan, stop) => open(subject, plan, stop, take),
        Work::First(plan, stop) => {
            stop_after_commit(subject, plan, stop);
            subject.store.start();
            let batch = subject.next_batch(plan);
            take(&mut || commit(&mut *subject.store, &batch))
        }
    }
}

fn in_a_row<S: PageStore + ?Sized, const N: usize>(
    subject: &mut Subject<S>,
    plan: Plan,
    take: Take<N>,
) -> [f64; N] {
    let batches: Vec<_> = (0..ROW).map(|_| subject.next_batch(plan)).collect();
    let all = take(&mut || {
        for batch in &batches {
            commit(&mut *subject.store, batch);
            subject.store.keep_up();
        }
    });
    all.map(|n| n / ROW as f64)
}

fn open<S: PageStore + ?Sized, const N: usize>(
    subject: &mut Subject<S>,
    plan: Plan,
    stop: Stop,
    take: Take<N>,
) -> [f64; N] {
    let (oid, wanted) = stop_after_commit(subject, plan, stop);
    let mut page = [0; BLOCK];
    let found = take(&mut || {
        subject.store.start();
        subject.store.read(oid, &mut page);
    });
    assert!(page == wanted, "page {oid} reads other bytes after a stop");
    found
}

/// Stops a store that has all home but one commit, whose first page it gives.
fn stop_after_commit<S: PageStore + ?Sized>(
    subject: &mut Subject<S>,
    plan: Plan,
    stop: Stop,
) -> (u32, Page) {
    bring_home(&mut *subject.store);
    let batch = subject.next_batch(plan);
    commit(&mut *subject.store, &batch);
    subject.store.stop();
    for file in subject.store.files() {
        match stop {
            // A stop may take long. No store's start is to find disk and processor asleep.
            Stop::Kill => drop(cold::sync(&file)),
            Stop::PowerCut => cold::drop_cached(&file),
        }
    }
    batch[0]
}
