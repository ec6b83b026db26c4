//! What a program lends to the library: its record, card and memory.

use crate::library::{Loan, Record};
use crate::rng::Rng;
use model::geometry::BLOCK;
use model::Lent;

/// Bytes after the card, for slices that are too long.
pub const CARD_SLACK: usize = 2 * BLOCK;
/// More than the most memory, for slices that are too long.
pub const MEMORY: usize = 66 * BLOCK;

#[derive(Clone)]
pub struct Stock {
    pub record: Record,
    /// The card and its slack.
    pub card: Vec<u8>,
    pub memory: Vec<u8>,
}

impl Stock {
    pub fn new(card: Vec<u8>) -> Stock {
        Stock {
            record: Record::ZEROS,
            card,
            memory: vec![0; MEMORY],
        }
    }

    pub fn lend(&mut self, lent: Lent) -> Loan<'_> {
        Loan {
            record: &mut self.record,
            card: &mut self.card[..lent.card],
            memory: &mut self.memory[..lent.memory],
        }
    }

    /// At a cut record and memory are lost: any bytes, or zeros for seed 0.
    pub fn lose(&mut self, seed: u64) {
        fill(seed, &mut self.record.0);
        fill(seed, &mut self.memory);
    }
}

/// Random bytes, or zeros for seed 0.
pub fn fill(seed: u64, bytes: &mut [u8]) {
    match seed {
        0 => bytes.fill(0),
        seed => Rng::new(seed).fill(bytes),
    }
}

/// Where two slices of one length first differ.
pub fn difference(one: &[u8], other: &[u8]) -> Option<usize> {
    if one == other {
        return None;
    }
    one.iter().zip(other).position(|(a, b)| a != b)
}
