//! Single calls of a lane store over a card in memory, in nanoseconds: medians of short batches.

use crate::card::{fresh_page, FRAMES};
use crate::clock::{median, Clock};
use crate::controller::{Calls, Controller};
use crate::shape::{same_bytes, Shape};
use crate::store::{Page, PageStore};
use crate::subject::{spread, Subject};
use lane::BLOCK;
use model::Kind;
use std::cmp::Reverse;
use std::hint::black_box;

type Own = Subject<Controller>;

/// Pages of a batch of first writes; a fresh page takes two of the memory frames.
const BATCH: usize = FRAMES / 2;
/// In `spread`'s order: pages from here on stand in no directory of any shape.
const UNCHANGED: usize = 600;
const UNCHANGED_PAGES: usize = 256;

fn unchanged(i: usize) -> u32 {
    spread(UNCHANGED + i % UNCHANGED_PAGES)
}

/// Copies of a block, from as many blocks in turn as pages are read.
pub fn floor(clock: &Clock, samples: usize) -> f64 {
    let blocks = vec![[1u8; BLOCK]; UNCHANGED_PAGES];
    let mut page = [0; BLOCK];
    median(samples, |_| {
        clock.batch(UNCHANGED_PAGES, |i| {
            page = *black_box(&blocks[i]);
            black_box(&mut page);
        })
    })
}

pub fn key(clock: &Clock, own: &mut Own, shape: Shape, samples: usize) -> f64 {
    let lane = shape.fill(own);
    let n = shape.batch();
    median(samples, |sample| {
        clock.batch(n, |i| {
            let count = lane.calls.key(unchanged(sample * n + i));
            assert_eq!(count, Ok(0), "key");
        })
    })
}

/// A page that has not changed: every directory is searched in vain.
pub fn read_home(clock: &Clock, own: &mut Own, shape: Shape, samples: usize) -> f64 {
    let lane = shape.fill(own);
    let mut page = [0; BLOCK];
    let n = shape.batch();
    median(samples, |sample| {
        clock.batch(n, |i| {
            let oid = unchanged(sample * n + i);
            lane.calls.read(oid, black_box(&mut page)).expect("read");
        })
    })
}

/// A page that waits in the current generation.
pub fn read_waiting(clock: &Clock, own: &mut Own, shape: Shape, samples: usize) -> f64 {
    let lane = shape.fill(own);
    let mut page = [0; BLOCK];
    median(samples, |_| {
        clock.batch(shape.batch(), |i| {
            let oid = spread(shape.waiting(i));
            lane.calls.read(oid, black_box(&mut page)).expect("read");
        })
    })
}

/// A whole-page write of a page that waits in the current generation.
pub fn write_waiting(clock: &Clock, own: &mut Own, shape: Shape, samples: usize) -> f64 {
    let pages = same_bytes(own, 0, shape.total());
    let lane = shape.fill(own);
    median(samples, |_| {
        clock.batch(shape.batch(), |i| {
            let (oid, page) = &pages[shape.waiting(i)];
            lane.calls.write(*oid, page).expect("write");
        })
    })
}

#[derive(Clone, Copy)]
pub enum Turn {
    First,
    Again,
}

/// Whole-page writes of a batch of pages: the first since the last snapshot, or one more of the same
/// pages.
pub fn write(clock: &Clock, own: &mut Own, turn: Turn, samples: usize) -> f64 {
    let pages = same_bytes(own, 0, BATCH);
    let lane = &mut own.store;
    median(samples, |_| {
        lane.abort();
        let mut write_all = || {
            clock.batch(BATCH, |i| {
                let (oid, page) = &pages[i];
                lane.calls.write(*oid, page).expect("write");
            })
        };
        let first = write_all();
        match turn {
            Turn::First => first,
            Turn::Again => write_all(),
        }
    })
}

/// One call on a fresh page of each of a batch of runs, dropped again.
fn each_run(
    clock: &Clock,
    own: &mut Own,
    samples: usize,
    call: impl Fn(&mut dyn Calls, u32),
) -> f64 {
    let lane = &mut own.store;
    median(samples, |_| {
        lane.abort();
        clock.batch(BATCH, |i| call(lane.calls.as_mut(), fresh_page(i as u32)))
    })
}

/// The first write to a page of zeros: page and pot take a place each.
pub fn write_fresh(clock: &Clock, own: &mut Own, samples: usize) -> f64 {
    each_run(clock, own, samples, |lane, oid| {
        lane.write(oid, &[7; BLOCK]).expect("write");
    })
}

pub fn rescind(clock: &Clock, own: &mut Own, samples: usize) -> f64 {
    each_run(clock, own, samples, |lane, oid| {
        lane.rescind(oid).expect("rescind");
    })
}

/// Some calls after a batch of first writes, dropped again.
fn after_writes(
    clock: &Clock,
    own: &mut Own,
    samples: usize,
    calls: usize,
    call: impl Fn(&mut dyn Calls),
) -> f64 {
    let pages = same_bytes(own, 0, BATCH);
    let lane = &mut own.store;
    median(samples, |_| {
        lane.abort();
        lane.change(&pages);
        clock.batch(calls, |_| call(lane.calls.as_mut()))
    })
}

pub fn page_out(clock: &Clock, own: &mut Own, samples: usize) -> f64 {
    after_writes(clock, own, samples, BATCH, |lane| {
        lane.page_out().expect("page-out");
    })
}

pub fn snapshot(clock: &Clock, own: &mut Own, samples: usize) -> f64 {
    after_writes(clock, own, samples, 1, |lane| {
        lane.snapshot().expect("snapshot");
    })
}

/// The order in which the pages of a commit change.
#[derive(Clone, Copy)]
pub enum Order {
    /// As `spread` has them: far apart, in rising runs.
    Spread,
    Rising,
    Random,
    Falling,
}

impl Order {
    pub fn name(self) -> &'static str {
        match self {
            Order::Spread => "spread",
            Order::Rising => "rising",
            Order::Random => "random",
            Order::Falling => "falling",
        }
    }

    fn arrange(self, pages: &mut [(u32, Page)]) {
        match self {
            Order::Spread => {}
            Order::Rising => pages.sort_unstable_by_key(|page| page.0),
            Order::Random => pages.sort_unstable_by_key(|page| scattered(page.0)),
            Order::Falling => pages.sort_unstable_by_key(|page| Reverse(page.0)),
        }
    }
}

/// A number without a pattern for each OID, and no two alike: steps of Fibonacci hashing.
fn scattered(oid: u32) -> u32 {
    let mixed = (oid ^ (oid >> 7)).wrapping_mul(2_654_435_769);
    (mixed ^ (mixed >> 15)).wrapping_mul(2_246_822_519)
}

/// One kind of advance, on the mean of a commit of so many pages that change in that order.
pub fn advance(
    clock: &Clock,
    own: &mut Own,
    kind: Kind,
    pages: usize,
    order: Order,
    samples: usize,
) -> f64 {
    let mut pages = same_bytes(own, 0, pages);
    order.arrange(&mut pages);
    let lane = &mut own.store;
    lane.abort();
    median(samples, |_| {
        let (mut total, mut calls) = (0.0, 0);
        lane.change(&pages);
        lane.calls.snapshot().expect("snapshot");
        while let (ns, Some(written)) = clock.time(|| lane.advance()) {
            if written == kind {
                total += ns;
                calls += 1;
            }
        }
        total / f64::from(calls)
    })
}

/// The call start, with so many entries committed.
pub fn start(clock: &Clock, own: &mut Own, entries: usize, samples: usize) -> f64 {
    let pages = same_bytes(own, 0, entries);
    let lane = &mut own.store;
    lane.abort();
    lane.change(&pages);
    lane.commit();
    median(samples, |_| clock.time(|| lane.start()).0)
}
