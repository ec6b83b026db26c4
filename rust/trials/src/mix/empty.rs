//! Pages that are emptied, before a snapshot and behind it.

use super::{repeat, Mix};
use crate::call::Call;
use crate::list::Step;

/// Enough advances to commit and migrate a page and its pot.
const WHOLE_COMMIT: usize = 10;

impl Mix {
    /// Commits of pages of which some are empty, and a start or a cut that may
    /// come amid their migration.
    pub(super) fn empty_pages(&mut self, steps: &mut Vec<Step>) {
        if self.rng.chance(300) {
            self.every_other_page(steps);
        } else {
            self.some_pages(steps);
        }
        match self.rng.below(6) {
            0 => steps.push(Step::plain(Call::Start)),
            1 => {}
            _ => steps.push(self.cut_in(Some(Call::Advance))),
        }
    }

    /// These change again while advances go on.
    fn some_pages(&mut self, steps: &mut Vec<Step>) {
        let oids: Vec<u32> = (0..self.rng.between(1, 6)).map(|_| self.oid()).collect();
        for _ in 0..self.rng.between(1, 2) {
            self.change_and_empty(&oids, steps);
            steps.push(Step::plain(Call::Snapshot));
            if self.rng.chance(300) {
                self.change_and_empty(&oids, steps);
            }
            self.burst(Call::Advance, 2 * oids.len() + 10, steps);
        }
    }

    /// Writes, with page-outs and rescinds between them.
    fn change_and_empty(&mut self, oids: &[u32], steps: &mut Vec<Step>) {
        for oid in oids {
            steps.push(Step::plain(self.change(*oid)));
            if self.rng.chance(250) {
                steps.push(Step::plain(Call::PageOut));
            }
            if self.rng.chance(400) {
                let oid = self.rng.pick(oids);
                steps.push(Step::plain(Call::Rescind { oid, count: 0 }));
            }
        }
    }

    /// A row of pages, every other one empty, which migrates alone and in part.
    fn every_other_page(&mut self, steps: &mut Vec<Step>) {
        let range = self.rng.pick(&self.geometry.ranges);
        let row = range.pages.min(self.rng.between(4, 8) as u32);
        repeat(Call::Advance, WHOLE_COMMIT, steps);
        for i in 0..row {
            let oid = range.first + i;
            steps.push(Step::plain(self.change(oid)));
            if i % 2 == 1 {
                steps.push(Step::plain(Call::Rescind { oid, count: 0 }));
                repeat(Call::PageOut, 3, steps);
            }
        }
        steps.push(Step::plain(Call::Snapshot));
        // P, D, T, F, H, F, then M.
        repeat(Call::Advance, self.rng.between(7, 7 + row as usize), steps);
    }

    /// A page whose generation has not its pot, emptied by a flag set at home,
    /// and two more generations.
    pub(super) fn emptied_at_home(&mut self, steps: &mut Vec<Step>) {
        let oid = self.any_oid();
        for _ in 0..2 {
            steps.extend([self.change(oid), Call::Snapshot].map(Step::plain));
            repeat(Call::Advance, WHOLE_COMMIT, steps);
        }
        steps.push(Step::DoctorPot {
            oid,
            count: self.rng.pick(&[0, 1000]),
            flags: self.rng.next() as u8 | 1,
        });
        let [one, other] = [0; 2].map(|count| Call::Rescind {
            oid: self.oid(),
            count,
        });
        steps.extend([Call::Advance, one, Call::Snapshot, other].map(Step::plain));
        self.advances(steps);
    }
}
