//! What a drive may hold at a cut: each block that was written since the last flush in one of
//! several ways, all others as they were.

use crate::block::{block, card_mark, mixed, Block, HEADER};
use crate::recorded::Event;
use crate::rng::Rng;
use lane::BLOCK;

/// A way in which a block may be found.
#[derive(Clone)]
pub struct Way {
    pub bytes: Box<Block>,
    pub mark: u64,
    pub name: &'static str,
}

/// A block that was written since the last flush.
#[derive(Clone)]
pub struct Spot {
    pub block: usize,
    /// As it was, then as each write since made it.
    pub whole: Vec<Way>,
    /// With a write over it that is not all down; none for a header that was written by itself.
    pub torn: Vec<Way>,
}

/// A write of a block that is not flushed.
#[derive(Clone)]
struct Unflushed {
    block: usize,
    bytes: Box<Block>,
    /// It is all that the write has.
    alone: bool,
}

/// What is not flushed, over what is.
#[derive(Clone)]
pub struct Doubt {
    /// The card as the last flush left it, behind its end zeros.
    safe: Vec<u8>,
    /// In the order made.
    unflushed: Vec<Unflushed>,
    /// The file's length at the last flush, and each since.
    lengths: Vec<usize>,
    /// Once the drive has failed no flush makes anything safe.
    failed: bool,
}

/// What a cut may leave.
pub struct Left {
    pub safe: Vec<u8>,
    /// A number of its bytes.
    pub mark: u64,
    pub lengths: Vec<usize>,
    /// In the order in which they were first written.
    pub spots: Vec<Spot>,
}

impl Doubt {
    pub fn new(card: &[u8]) -> Doubt {
        Doubt {
            safe: card.to_vec(),
            unflushed: Vec::new(),
            lengths: vec![card.len()],
            failed: false,
        }
    }

    /// The headers that a cut may leave, the last one last.
    pub fn headers(&self) -> Vec<Block> {
        let written = self.unflushed.iter().filter(|write| write.block == HEADER);
        let old = block(&self.safe, HEADER);
        [old]
            .into_iter()
            .chain(written.map(|write| *write.bytes))
            .collect()
    }

    pub fn apply(&mut self, event: &Event) {
        match event {
            Event::Write { first, bytes, done } => {
                self.failed |= !done;
                let alone = bytes.len() == BLOCK;
                let blocks = bytes.chunks_exact(BLOCK).enumerate();
                self.unflushed.extend(blocks.map(|(i, bytes)| Unflushed {
                    block: first + i,
                    bytes: Box::new(bytes.try_into().expect("a block")),
                    alone,
                }));
            }
            Event::Flush { done } => {
                self.failed |= !done;
                if !self.failed {
                    self.flush();
                }
            }
            Event::Length(length) => {
                self.lengths.push(*length);
                let end = self.safe.len().max(*length);
                self.safe.resize(end, 0);
            }
        }
    }

    fn flush(&mut self) {
        for write in self.unflushed.drain(..) {
            let at = write.block * BLOCK;
            self.safe[at..at + BLOCK].copy_from_slice(&*write.bytes);
        }
        let length = *self.lengths.last().expect("at least one");
        self.lengths = vec![length];
        self.safe.truncate(length);
    }

    pub fn left(&self) -> Left {
        let mut spots: Vec<Spot> = Vec::new();
        for write in &self.unflushed {
            let place = spots.iter().position(|spot| spot.block == write.block);
            let place = place.unwrap_or_else(|| {
                spots.push(Spot::new(write.block, &self.safe));
                spots.len() - 1
            });
            spots[place].write(&write.bytes, write.alone);
        }
        Left {
            safe: self.safe.clone(),
            mark: card_mark(&self.safe),
            lengths: self.lengths.clone(),
            spots,
        }
    }
}

impl Spot {
    fn new(number: usize, card: &[u8]) -> Spot {
        let mut spot = Spot {
            block: number,
            whole: Vec::new(),
            torn: Vec::new(),
        };
        spot.whole.push(spot.way(block(card, number), "old"));
        spot
    }

    pub fn last(&self) -> &Way {
        self.whole.last().expect("at least the old bytes")
    }

    /// The whole ways, then the torn ones.
    pub fn way_at(&self, place: usize) -> &Way {
        let whole = self.whole.len();
        if place < whole {
            &self.whole[place]
        } else {
            &self.torn[place - whole]
        }
    }

    fn way(&self, bytes: Block, name: &'static str) -> Way {
        Way {
            mark: mixed(self.block as u64, &bytes),
            bytes: Box::new(bytes),
            name,
        }
    }

    /// A header that is written by itself is never torn. Bytes that are written again as they are
    /// leave no new way but torn ones.
    fn write(&mut self, new: &Block, alone: bool) {
        if self.block != HEADER || !alone {
            self.tear(new);
        }
        if *self.last().bytes != *new {
            let known = self.whole.iter().position(|way| *way.bytes == *new);
            let way = match known {
                Some(place) => self.whole.remove(place),
                None => self.way(*new, "new"),
            };
            self.whole.push(way);
        }
    }

    /// What a write over the bytes before it leaves, if it is not all down.
    fn tear(&mut self, new: &Block) {
        let old = *self.last().bytes;
        let mut any = old;
        Rng::new(self.last().mark).fill(&mut any);
        let split = within_difference(&old, new, self.last().mark);
        let ways = [
            (joined(&old, new, BLOCK / 2), "half old, half new"),
            (joined(new, &old, BLOCK / 2), "half new, half old"),
            (joined(&old, new, split), "old, then new"),
            (joined(new, &old, split), "new, then old"),
            (any, "any bytes"),
            ([0; BLOCK], "zeros"),
        ];
        for (bytes, name) in ways {
            let mut known = self.whole.iter().chain(&self.torn);
            if bytes != *new && known.all(|way| *way.bytes != bytes) {
                self.torn.push(self.way(bytes, name));
            }
        }
    }
}

/// The first bytes of one block and the rest of another.
fn joined(first: &Block, second: &Block, split: usize) -> Block {
    let mut bytes = *second;
    bytes[..split].copy_from_slice(&first[..split]);
    bytes
}

/// A place between bytes in which the two differ, so that neither half is the whole of one.
fn within_difference(old: &Block, new: &Block, seed: u64) -> usize {
    let differ: Vec<usize> = (0..BLOCK).filter(|i| old[*i] != new[*i]).collect();
    match differ.len() {
        0 | 1 => 0,
        count => differ[1 + (seed % (count as u64 - 1)) as usize],
    }
}

#[cfg(test)]
mod tests {
    use super::*;

    fn write(first: usize, bytes: &[u8]) -> Event {
        Event::Write {
            first,
            bytes: bytes.to_vec(),
            done: true,
        }
    }

    fn names(spot: &Spot) -> Vec<&'static str> {
        spot.torn.iter().map(|way| way.name).collect()
    }

    #[test]
    fn a_block_may_be_found_as_each_write_made_it() {
        let mut doubt = Doubt::new(&[7; 3 * BLOCK]);
        for byte in [1, 2, 1] {
            doubt.apply(&write(2, &[byte; BLOCK]));
        }
        let first = |way: &Way| way.bytes[0];
        let whole: Vec<u8> = doubt.left().spots[0].whole.iter().map(first).collect();
        assert_eq!(whole, [7, 2, 1]);
        doubt.apply(&Event::Flush { done: true });
        assert!(doubt.left().spots.is_empty());
        assert_eq!(doubt.safe[2 * BLOCK], 1);
    }

    #[test]
    fn only_a_header_by_itself_is_whole() {
        let mut doubt = Doubt::new(&[7; 3 * BLOCK]);
        doubt.apply(&write(0, &[1; BLOCK]));
        assert!(doubt.left().spots[0].torn.is_empty());
        doubt.apply(&write(0, &[2; 2 * BLOCK]));
        let spots = doubt.left().spots;
        assert!(names(&spots[0]).contains(&"any bytes"));
        assert!(names(&spots[1]).contains(&"half old, half new"));
        let headers: Vec<u8> = doubt.headers().iter().map(|header| header[0]).collect();
        assert_eq!(headers, [7, 1, 2]);
    }

    #[test]
    fn a_block_that_is_rewritten_as_it_is_may_be_torn() {
        let mut doubt = Doubt::new(&[7; 3 * BLOCK]);
        doubt.apply(&write(2, &[7; BLOCK]));
        let spot = &doubt.left().spots[0];
        assert_eq!(spot.whole.len(), 1);
        assert_eq!(names(spot), ["any bytes", "zeros"]);
    }

    #[test]
    fn after_a_failure_nothing_becomes_safe() {
        let mut doubt = Doubt::new(&[7; 3 * BLOCK]);
        doubt.apply(&write(2, &[1; BLOCK]));
        doubt.apply(&Event::Flush { done: false });
        doubt.apply(&Event::Flush { done: true });
        assert_eq!(doubt.left().spots[0].whole.len(), 2);
        assert_eq!(doubt.safe[2 * BLOCK], 7);
    }
}
