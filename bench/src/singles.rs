//! Single reads and writes of every store, as a program makes them. Nanoseconds, means of batches.

use crate::clock::{median, Clock};
use crate::store::{bring_home, commit, PageStore};
use crate::subject::{spread, Plan, Subject};
use lane::BLOCK;
use std::hint::black_box;

const PAGES: usize = 256;
const BATCH: Plan = Plan {
    pages: 32,
    neighbours: false,
};

/// A page that was read before; the last commit is home.
pub fn read<S: PageStore + ?Sized>(clock: &Clock, subject: &mut Subject<S>, samples: usize) -> f64 {
    let pages = subject.next_batch(BATCH);
    let store = &mut *subject.store;
    commit(store, &pages);
    bring_home(store);
    let mut page = [0; BLOCK];
    let mut read = |i| store.read(spread(i), black_box(&mut page));
    (0..PAGES).for_each(&mut read);
    median(samples, |_| clock.batch(PAGES, &mut read))
}

#[derive(Clone, Copy)]
pub enum Turn {
    First,
    Again,
}

/// A write of a whole page, the first since the last commit, or one more of the same pages.
pub fn write<S: PageStore + ?Sized>(
    clock: &Clock,
    subject: &mut Subject<S>,
    turn: Turn,
    samples: usize,
) -> f64 {
    median(samples, |_| {
        let pages = subject.next_batch(BATCH);
        let store = &mut *subject.store;
        store.begin();
        let mut write_all = || {
            clock.batch(BATCH.pages, |i| {
                let (oid, page) = &pages[i];
                store.write(*oid, page);
            })
        };
        let first = write_all();
        let ns = match turn {
            Turn::First => first,
            Turn::Again => write_all(),
        };
        store.commit();
        store.settle();
        ns
    })
}
