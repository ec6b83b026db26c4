//! Generations that take all of the largest H, 256: p 251 and e 251.

use super::{repeat, Mix};
use crate::call::Call;
use crate::cards::FULL_RUN;
use crate::limits::FULL;
use crate::list::{Lending, Step};
use model::geometry::{BLOCK, RUN};

/// Memory in which a run's pages and its pot wait together.
const FRAMES: usize = 64;
/// A commit while the last run waits: its frames, four directory blocks, the
/// trailer, a flush and the header.
const ADVANCES: usize = FULL_RUN + 4 + 1 + 2;
/// The most entries of a commit of one page, and the advances that commit and
/// migrate them.
const FEW: usize = 2;
const ALL_OF_FEW: usize = FEW + 1 + 1 + 3 + FEW;

impl Mix {
    /// Three such generations, after a few small ones, so that they begin at
    /// any of many blocks. Two are committed and found by a start, a cut ends
    /// the third one's commit, and what it leaves is migrated.
    pub(super) fn full_generations(&mut self, steps: &mut Vec<Step>) {
        self.small_generations(steps);
        for committed in [FEW, FULL] {
            let advances = self.full_generation(committed, steps);
            repeat(Call::Advance, advances, steps);
            self.find(steps);
        }
        let advances = self.full_generation(FULL, steps);
        repeat(Call::Advance, self.rng.below(advances), steps);
        steps.push(self.cut_in(Some(Call::Advance)));
        repeat(Call::Advance, 1 + FULL, steps);
    }

    fn small_generations(&mut self, steps: &mut Vec<Step>) {
        repeat(Call::Advance, 1, steps);
        for _ in 0..self.rng.below(8) {
            let oid = self.any_oid();
            steps.extend([self.change(oid), Call::Snapshot].map(Step::plain));
            repeat(Call::Advance, ALL_OF_FEW, steps);
        }
    }

    /// A full generation up to its snapshot, and how many advances then commit
    /// it at most. So many entries are committed before, and those that are not
    /// passed over migrate at once or in its commit.
    fn full_generation(&mut self, committed: usize, steps: &mut Vec<Step>) -> usize {
        let memory = Some(FRAMES * BLOCK);
        steps.push(Step::Call {
            call: Call::Start,
            lending: Lending { card: None, memory },
        });
        let migrated = self.rng.pick(&[0, committed]);
        repeat(Call::Advance, 1 + migrated, steps);
        self.fill(steps);
        let oid = self.any_oid();
        steps.extend([Call::Snapshot, self.change(oid)].map(Step::plain));
        ADVANCES + committed - migrated
    }

    /// A start, or a flush and a cut.
    fn find(&mut self, steps: &mut Vec<Step>) {
        if self.rng.chance(500) {
            return repeat(Call::Start, 1, steps);
        }
        repeat(Call::Advance, 1, steps);
        steps.push(self.cut_in(None));
    }

    /// Changes 62 pages and the pot of each of three runs, and of a fourth one
    /// 61. Then neither a new frame nor one paged out finds a place; a frame
    /// that waits needs none.
    fn fill(&mut self, steps: &mut Vec<Step>) {
        let runs = self.four_runs();
        for run in &runs[..3] {
            self.change_run(&run[..FULL_RUN], steps);
            repeat(Call::PageOut, FULL_RUN + 1, steps);
        }
        self.change_run(&runs[3][1..FULL_RUN], steps);
        let more = [runs[3][0], runs[0][0], runs[3][1]];
        steps.extend(more.map(|oid| Step::plain(self.change(oid))));
    }

    /// Each frame takes one place, whatever the pages' flags: none is paged out
    /// before all are changed.
    fn change_run(&mut self, oids: &[u32], steps: &mut Vec<Step>) {
        for oid in oids {
            steps.push(Step::plain(self.change(*oid)));
        }
        let (oid, count) = (self.rng.pick(oids), 0);
        steps.push(Step::plain(Call::Rescind { oid, count }));
    }

    /// The OIDs of any four runs, in any order.
    fn four_runs(&mut self) -> Vec<Vec<u32>> {
        let mut runs = Vec::new();
        for range in &self.geometry.ranges {
            let mut oids: Vec<u32> = (0..range.pages).map(|i| range.first + i).collect();
            for run in oids.chunks_mut(RUN) {
                self.rng.shuffle(run);
                runs.push(run.to_vec());
            }
        }
        self.rng.shuffle(&mut runs);
        runs.truncate(4);
        runs
    }
}
