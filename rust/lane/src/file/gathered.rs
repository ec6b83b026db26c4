use super::Run;
use std::vec::Vec;

/// Blocks that the card has and the drive has not been handed yet.
///
/// Between two flushes they may go down in any order, so they go down together, neighbours in one
/// write. The header goes by itself: the drive owes it whole, and of a longer write it owes nothing.
#[derive(Default)]
pub(super) struct Gathered {
    blocks: Vec<usize>,
    runs: Vec<Run>,
}

const HEADER: usize = 0;

impl Gathered {
    pub fn add(&mut self, block: usize) {
        self.blocks.push(block);
    }

    /// What was gathered, as runs by rising block; nothing is gathered any more.
    pub fn take(&mut self) -> &[Run] {
        self.blocks.sort_unstable();
        self.blocks.dedup();
        self.runs.clear();
        for first in self.blocks.drain(..) {
            match self.runs.last_mut() {
                Some(run) if run.first != HEADER && run.first + run.blocks == first => {
                    run.blocks += 1;
                }
                _ => self.runs.push(Run { first, blocks: 1 }),
            }
        }
        &self.runs
    }
}

#[cfg(test)]
mod tests {
    use super::*;

    fn runs(blocks: &[usize]) -> Vec<(usize, usize)> {
        let mut gathered = Gathered::default();
        blocks.iter().for_each(|block| gathered.add(*block));
        let runs = gathered.take().iter();
        runs.map(|run| (run.first, run.blocks)).collect()
    }

    #[test]
    fn neighbours_go_in_one_write() {
        assert_eq!(
            runs(&[7, 8, 1, 2, 20, 22]),
            [(1, 2), (7, 2), (20, 1), (22, 1)]
        );
    }

    #[test]
    fn the_header_goes_by_itself() {
        assert_eq!(runs(&[1, 0, 2]), [(0, 1), (1, 2)]);
    }

    #[test]
    fn what_was_taken_is_not_gathered_any_more() {
        let mut gathered = Gathered::default();
        gathered.add(3);
        gathered.take();
        assert!(gathered.take().is_empty());
    }
}
