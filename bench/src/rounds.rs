//! How often something is measured.

use crate::clock::Clock;
use crate::store::PageStore;
use crate::subject::Subject;

/// How many rounds, and samples in each.
#[derive(Clone, Copy)]
pub struct Pace {
    pub rounds: usize,
    pub samples: usize,
}

impl Pace {
    pub const FULL: Pace = Pace {
        rounds: 11,
        samples: 31,
    };
    pub const QUICK: Pace = Pace {
        rounds: 3,
        samples: 9,
    };

    /// Commits of a round.
    pub fn commits(self) -> usize {
        4 * self.samples
    }

    /// Opens of a round: the way to each is long.
    pub fn opens(self) -> usize {
        self.samples.div_ceil(3)
    }
}

pub struct Rounds {
    pub clock: Clock,
    pub pace: Pace,
}

impl Rounds {
    /// For each store the lowest of some rounds, which take the stores in turn.
    pub fn lowest<S: PageStore + ?Sized>(
        &self,
        subjects: &mut [Subject<S>],
        measure: impl Fn(&Clock, &mut Subject<S>) -> f64,
    ) -> Vec<f64> {
        let mut lowest = vec![f64::INFINITY; subjects.len()];
        for _ in 0..self.pace.rounds {
            for (so_far, subject) in lowest.iter_mut().zip(&mut *subjects) {
                *so_far = so_far.min(measure(&self.clock, subject));
            }
        }
        lowest
    }
}
