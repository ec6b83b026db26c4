//! The parts of a run, and the threads' work on them.

use crate::doctored::{self, Failed, STATES};
use crate::library::Linked;
use crate::list::List;
use crate::mix;
use crate::rng::Rng;
use crate::run::{run, Failure};
use crate::tally::Tally;
use model::Model;
use std::ops::Range;
use std::panic::{catch_unwind, AssertUnwindSafe};
use std::sync::atomic::{AtomicUsize, Ordering};

/// Doctored records and cards in each state come before the lists.
pub const DOCTORED: usize = 2 * STATES.len();

const THREADS: usize = 2;

/// The parts of a run. Each has a seed of its own, so a run is the same
/// whichever thread takes which part.
enum Part {
    Records(usize),
    Cards(usize),
    List,
}

fn part(number: usize) -> Part {
    if number < STATES.len() {
        Part::Records(number)
    } else if number < DOCTORED {
        Part::Cards(number - STATES.len())
    } else {
        Part::List
    }
}

/// What one thread has seen.
#[derive(Default)]
pub struct Seen {
    pub lists: Tally,
    pub doctored: Tally,
    /// The first part that failed, and how.
    pub failed: Option<(usize, Failed)>,
}

fn make_part(seed: u64, number: usize, seen: &mut Seen) -> Result<(), Failed> {
    let mut rng = Rng::part(seed, number as u64);
    let tally = &mut seen.doctored;
    match part(number) {
        Part::Records(i) => doctored::records::doctor(&mut Linked, tally, STATES[i], rng),
        Part::Cards(i) => doctored::cards::doctor(&mut Linked, tally, STATES[i], rng),
        Part::List => {
            let list = mix::list(rng.next());
            seen.lists.lists += 1;
            let result = run_list(&list, &mut seen.lists);
            result.map_err(|failure| Failed::List(Box::new(list), failure))
        }
    }
}

pub fn run_list(list: &List, tally: &mut Tally) -> Result<(), Failure> {
    run(&mut Linked, Model::new(Vec::new()), list, tally)
}

/// A panic in a part is a failure of that part.
fn try_part(seed: u64, number: usize, seen: &mut Seen) -> Result<(), Failed> {
    let made = AssertUnwindSafe(|| make_part(seed, number, seen));
    catch_unwind(made).unwrap_or_else(|panic| {
        let text = panic.downcast_ref::<&str>().map(|text| text.to_string());
        let text = text.or_else(|| panic.downcast_ref::<String>().cloned());
        Err(Failed::Panic(text.unwrap_or_default()))
    })
}

/// What the threads have seen.
pub fn work(seed: u64, parts: Range<usize>) -> Vec<Seen> {
    let next = AtomicUsize::new(parts.start);
    std::thread::scope(|scope| {
        let threads = [(); THREADS].map(|()| scope.spawn(|| take(seed, parts.end, &next)));
        let seen = threads.map(|thread| thread.join());
        seen.into_iter()
            .map(|seen| seen.expect("a part's panic is caught"))
            .collect()
    })
}

/// Takes parts until none is left or one has failed in some thread.
fn take(seed: u64, parts: usize, next: &AtomicUsize) -> Seen {
    let mut seen = Seen::default();
    loop {
        let number = next.fetch_add(1, Ordering::Relaxed);
        if number >= parts {
            return seen;
        }
        if let Err(failed) = try_part(seed, number, &mut seen) {
            next.store(parts, Ordering::Relaxed);
            seen.failed = Some((number, failed));
            return seen;
        }
    }
}
