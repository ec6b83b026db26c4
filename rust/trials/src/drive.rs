//! The drive under the card: at a cut it may have put down any of the writes
//! since the last flush, in any order, the last one torn.

use crate::rng::Rng;
use model::blocks::Block;
use std::collections::BTreeMap;

/// The header's block: it is found whole, old or new.
const HEADER: usize = 0;

/// Which of the writes that are not flushed a cut puts down.
#[derive(Clone, Debug, PartialEq)]
pub enum Down {
    /// All, in the order made.
    All,
    /// Any of them, in any order, by this seed.
    Any(u64),
    /// Those of these blocks, in this order.
    Blocks(Vec<usize>),
}

/// What a cut leaves of the last one that it puts down.
#[derive(Clone, Copy, Debug, PartialEq)]
pub enum Left {
    Old,
    New,
    /// Any bytes, from this seed.
    Any(u64),
    /// Old and new bytes mixed, by this seed.
    Mixed(u64),
}

/// A block write that is not flushed.
#[derive(Clone, Copy)]
pub struct Unflushed {
    /// Which write it is, by its row in the tally of cuts.
    pub row: usize,
    pub block: usize,
    /// What the block held before it.
    pub old: Block,
    pub new: Block,
    /// Was a start done after it, without a cut?
    pub started: bool,
}

#[derive(Default)]
pub struct Drive {
    /// The writes since the last flush, in the order made.
    unflushed: Vec<Unflushed>,
    /// Has there been a format, and no flush since?
    formatting: bool,
}

/// What a cut finds of the writes that were not flushed.
pub struct Found {
    /// In the order made, that of the call with the cut in it last.
    pub writes: Vec<Unflushed>,
    /// How many were made by earlier calls.
    pub earlier: usize,
    /// Which are down whole, in the order in which they were put down.
    pub whole: Vec<usize>,
    /// Is there one more, torn?
    pub torn: bool,
    /// Their blocks as they are left.
    pub blocks: BTreeMap<usize, Block>,
}

impl Drive {
    /// A format is complete at the first flush after it. No cut comes before
    /// that, so its writes and the earlier ones need not be known.
    pub fn format(&mut self) {
        self.unflushed.clear();
        self.formatting = true;
    }

    /// Until a format is complete there is no cut.
    pub fn can_be_cut(&self) -> bool {
        !self.formatting
    }

    pub fn write(&mut self, write: Unflushed) {
        self.unflushed.push(write);
    }

    pub fn flush(&mut self) {
        *self = Drive::default();
    }

    /// A start without a cut sees all writes, and flushes none.
    pub fn start(&mut self) {
        for write in &mut self.unflushed {
            write.started = true;
        }
    }

    /// A cut, between calls or in one that makes this write. After it nothing
    /// is unflushed.
    pub fn cut(&mut self, making: Option<Unflushed>, down: &Down, left: Left) -> Found {
        let mut writes = std::mem::take(&mut self.unflushed);
        let earlier = writes.len();
        writes.extend(making);
        let mut blocks = BTreeMap::new();
        for write in &writes {
            blocks.entry(write.block).or_insert(write.old);
        }
        let mut found = Found {
            whole: down.order(&writes),
            writes,
            earlier,
            torn: false,
            blocks,
        };
        found.put_down(left);
        found
    }
}

impl Found {
    fn put_down(&mut self, left: Left) {
        let Some((last, before)) = self.whole.split_last() else {
            return;
        };
        for i in before {
            self.blocks
                .insert(self.writes[*i].block, self.writes[*i].new);
        }
        let Unflushed { block, new, .. } = self.writes[*last];
        let old = self.blocks[&block];
        let bytes = left.bytes(block, &old, &new);
        self.blocks.insert(block, bytes);
        if bytes != new {
            self.torn = bytes != old;
            self.whole.pop();
        }
    }

    /// Has the header write among them, if there is one, reached the card?
    pub fn header_reached(&self) -> bool {
        let header = self.writes.iter().rfind(|write| write.block == HEADER);
        header.is_some_and(|write| write.new == self.blocks[&HEADER])
    }
}

impl Down {
    /// The writes that are put down, by their places in the order made.
    fn order(&self, writes: &[Unflushed]) -> Vec<usize> {
        let mut order: Vec<usize> = (0..writes.len()).collect();
        match self {
            Down::All => {}
            Down::Any(seed) => {
                let mut rng = Rng::new(*seed);
                rng.shuffle(&mut order);
                order.truncate(rng.below(order.len() + 1));
            }
            Down::Blocks(blocks) => {
                let of = |block: &usize| writes.iter().position(|write| write.block == *block);
                order = blocks.iter().filter_map(of).collect();
            }
        }
        order
    }
}

impl Left {
    /// The header is left old or new, never torn.
    fn bytes(self, block: usize, old: &Block, new: &Block) -> Block {
        match self {
            Left::Old => *old,
            Left::New => *new,
            Left::Any(seed) | Left::Mixed(seed) if block == HEADER => {
                if seed.is_multiple_of(2) {
                    *old
                } else {
                    *new
                }
            }
            Left::Any(seed) => {
                let mut bytes = *old;
                Rng::new(seed).fill(&mut bytes);
                bytes
            }
            Left::Mixed(seed) => mixed(seed, old, new),
        }
    }
}

/// A stretch of new bytes in the old block, or each byte one or the other.
fn mixed(seed: u64, old: &Block, new: &Block) -> Block {
    let mut rng = Rng::new(seed);
    let mut bytes = *old;
    if rng.chance(500) {
        let from = rng.below(bytes.len());
        let to = rng.between(from, bytes.len());
        bytes[from..to].copy_from_slice(&new[from..to]);
        return bytes;
    }
    for (byte, new) in bytes.iter_mut().zip(new) {
        if rng.chance(500) {
            *byte = *new;
        }
    }
    bytes
}
