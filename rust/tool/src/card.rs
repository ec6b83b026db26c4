//! What stands on a card, as `docs/FORMAT.md` has it: numbers, blocks, and where a page is at home.

use crate::text::{blocks, oids, pages};
use lane::{Range, BLOCK};

/// Pages that share a pot.
pub const RUN: usize = 102;
/// Blocks of a pot and its pages.
const RUN_BLOCKS: usize = 1 + RUN;
/// Entries that fill a directory block.
const ENTRIES: usize = 64;
/// Where a trailer's numbers begin.
const TRAILER_AT: usize = BLOCK - 16;
pub const MOST_RANGES: u32 = 8;
/// Blocks of a card, least and most.
pub const BLOCKS: std::ops::RangeInclusive<u64> = 11..=65_536;

/// A stored number: four bytes, the low one first.
pub fn number(bytes: &[u8], at: usize) -> u32 {
    let mut four = [0; 4];
    four.copy_from_slice(&bytes[at..at + 4]);
    u32::from_le_bytes(four)
}

pub fn block(card: &[u8], block: usize) -> &[u8] {
    &card[block * BLOCK..(block + 1) * BLOCK]
}

/// The OID behind a range's last one, which may be 4,294,967,296.
pub fn end(range: &Range) -> u64 {
    u64::from(range.first) + u64::from(range.pages)
}

/// Blocks that a range takes: n + n/102 rounded up.
pub fn range_blocks(range: &Range) -> u64 {
    let n = u64::from(range.pages);
    n + n.div_ceil(RUN as u64)
}

/// Blocks of a card with that area and those ranges.
pub fn card_blocks(area: u32, ranges: &[Range]) -> u64 {
    1 + u64::from(area) + ranges.iter().map(range_blocks).sum::<u64>()
}

/// Directory blocks for e entries.
pub fn directory_blocks(e: u64) -> u64 {
    e.div_ceil(ENTRIES as u64)
}

/// Blocks of a generation with changes.
pub fn size(p: u64, e: u64) -> u64 {
    p + directory_blocks(e) + 1
}

/// Block 0, its numbers as they stand.
#[derive(Clone, Debug, PartialEq)]
pub struct Header {
    pub layout: u32,
    pub commit: u32,
    pub trailer: u32,
    pub area: u32,
    /// How many ranges it says it has.
    pub count: u32,
    /// Those ranges, 8 at most.
    pub ranges: Vec<Range>,
}

impl Header {
    pub fn of(block: &[u8]) -> Header {
        let count = number(block, 16);
        let range = |i: usize| Range {
            first: number(block, 20 + 8 * i),
            pages: number(block, 24 + 8 * i),
        };
        Header {
            layout: number(block, 0),
            commit: number(block, 4),
            trailer: number(block, 8),
            area: number(block, 12),
            count,
            ranges: (0..count.min(MOST_RANGES) as usize).map(range).collect(),
        }
    }
}

/// The last block of a generation, its numbers as they stand.
#[derive(Clone, Debug, PartialEq)]
pub struct Trailer {
    pub commit: u32,
    pub first: u32,
    pub p: u32,
    pub e: u32,
}

impl Trailer {
    pub fn of(block: &[u8]) -> Trailer {
        Trailer {
            commit: number(block, TRAILER_AT),
            first: number(block, TRAILER_AT + 4),
            p: number(block, TRAILER_AT + 8),
            e: number(block, TRAILER_AT + 12),
        }
    }
}

/// A directory entry, its numbers as they stand.
#[derive(Clone, Copy, Debug, PartialEq)]
pub struct Entry {
    pub frame: u32,
    pub block: u32,
}

/// The area, in which block 1 follows block A.
#[derive(Clone, Copy, Debug, PartialEq)]
pub struct Ring {
    pub area: usize,
}

impl Ring {
    /// The block so many on from an area block.
    pub fn on(self, block: usize, by: usize) -> usize {
        (block - 1 + by) % self.area + 1
    }

    /// How many blocks an area block is on from another.
    pub fn distance(self, from: usize, block: usize) -> usize {
        (block + self.area - from) % self.area
    }

    pub fn has(self, block: u64) -> bool {
        (1..=self.area as u64).contains(&block)
    }

    pub fn half(self) -> usize {
        self.area / 2
    }

    /// The entries of a generation of which first block, p and e keep question 7.
    pub fn entries(self, card: &[u8], first: usize, p: usize, e: usize) -> Vec<Entry> {
        let entry = |i: usize| {
            let bytes = block(card, self.on(first, p + i / ENTRIES));
            let at = 8 * (i % ENTRIES);
            Entry {
                frame: number(bytes, at),
                block: number(bytes, at + 4),
            }
        };
        (0..e).map(entry).collect()
    }
}

/// A range and its first block.
#[derive(Clone, Copy, Debug, PartialEq)]
pub struct Placed {
    pub range: Range,
    pub block: usize,
}

impl Placed {
    pub fn blocks(&self) -> usize {
        range_blocks(&self.range) as usize
    }

    pub fn last_block(&self) -> usize {
        self.block + self.blocks() - 1
    }

    pub fn last_oid(&self) -> u32 {
        (end(&self.range) - 1) as u32
    }

    /// OIDs, pages and blocks in words.
    pub fn said(&self) -> String {
        let oids = oids(self.range.first, self.last_oid());
        let pages = pages(self.range.pages as usize);
        format!("{oids}, {pages}, {}", blocks(self.block, self.last_block()))
    }

    /// Its runs, each a pot and the pages behind it.
    pub fn runs(&self) -> impl Iterator<Item = Run> + '_ {
        let n = self.range.pages as usize;
        (0..n.div_ceil(RUN)).map(move |i| Run {
            pot: self.block + RUN_BLOCKS * i,
            first: self.range.first + (RUN * i) as u32,
            pages: RUN.min(n - RUN * i),
        })
    }
}

/// A pot and the up to 102 pages that it serves.
#[derive(Clone, Copy, Debug, PartialEq)]
pub struct Run {
    /// Block of the pot.
    pub pot: usize,
    /// OID of its first page.
    pub first: u32,
    pub pages: usize,
}

impl Run {
    pub fn oid(&self, entry: usize) -> u32 {
        self.first + entry as u32
    }

    pub fn page(&self, entry: usize) -> usize {
        self.pot + 1 + entry
    }

    pub fn last_oid(&self) -> u32 {
        self.oid(self.pages - 1)
    }

    pub fn pot_said(&self) -> String {
        format!("pot of {}", oids(self.first, self.last_oid()))
    }
}

/// What is said of an empty page.
pub const EMPTY: &str = "empty; home may hold any bytes";

/// Count and flag of a run's page, by the pot's bytes.
#[derive(Clone, Copy, Debug, PartialEq)]
pub struct Mark {
    pub count: u32,
    /// The flag is set: the page reads as zeros, and no block is read for it.
    pub empty: bool,
}

impl Mark {
    pub fn of(pot: &[u8], entry: usize) -> Mark {
        let at = 5 * entry;
        Mark {
            count: number(pot, at),
            empty: pot[at + 4] & 1 == 1,
        }
    }

    pub fn said(self) -> String {
        let flag = if self.empty { EMPTY } else { "not empty" };
        format!("count {}, {flag}", self.count)
    }
}

/// What a home block is.
#[derive(Clone, Copy, Debug, PartialEq)]
pub enum Frame {
    Pot(Run),
    Page { run: Run, entry: usize },
}

impl Frame {
    /// By its OIDs.
    pub fn said(&self) -> String {
        match self {
            Frame::Pot(run) => run.pot_said(),
            Frame::Page { run, entry } => format!("OID {}", run.oid(*entry)),
        }
    }
}

/// Where all is, of a card that keeps question 5.
#[derive(Clone, Debug, PartialEq)]
pub struct Geometry {
    pub ring: Ring,
    pub ranges: Vec<Placed>,
}

impl Geometry {
    pub fn of(header: &Header) -> Geometry {
        let mut block = 1 + header.area as usize;
        let mut ranges = Vec::new();
        for range in &header.ranges {
            let placed = Placed {
                range: *range,
                block,
            };
            block += placed.blocks();
            ranges.push(placed);
        }
        let area = header.area as usize;
        let ring = Ring { area };
        Geometry { ring, ranges }
    }

    pub fn pages(&self) -> usize {
        self.ranges.iter().map(|r| r.range.pages as usize).sum()
    }

    pub fn blocks(&self) -> usize {
        self.ranges.last().map_or(0, |range| range.last_block() + 1)
    }

    /// What a home block is.
    pub fn frame(&self, block: usize) -> Option<Frame> {
        let placed = self
            .ranges
            .iter()
            .find(|placed| (placed.block..=placed.last_block()).contains(&block))?;
        let run = placed.runs().nth((block - placed.block) / RUN_BLOCKS)?;
        Some(match block - run.pot {
            0 => Frame::Pot(run),
            on => Frame::Page { run, entry: on - 1 },
        })
    }

    /// The run of an OID, and the entry of its page.
    pub fn place(&self, oid: u32) -> Option<(Run, usize)> {
        let placed = self
            .ranges
            .iter()
            .find(|placed| placed.range.first <= oid && u64::from(oid) < end(&placed.range))?;
        let r = (oid - placed.range.first) as usize;
        Some((placed.runs().nth(r / RUN)?, r % RUN))
    }
}

#[cfg(test)]
mod tests {
    use super::*;

    /// The worked example of `docs/FORMAT.md`, "Ranges".
    fn example() -> Geometry {
        let range = |first, pages| Range { first, pages };
        Geometry::of(&Header {
            layout: 1,
            commit: 0,
            trailer: 0,
            area: 8,
            count: 2,
            ranges: vec![range(100, 103), range(1000, 20)],
        })
    }

    #[test]
    fn pages_are_at_home_where_the_document_says() {
        let geometry = example();
        assert_eq!(geometry.blocks(), 135);
        for (oid, page, pot, at) in [
            (100, 10, 9, 0),
            (201, 111, 9, 505),
            (202, 113, 112, 0),
            (1005, 120, 114, 25),
        ] {
            let (run, entry) = geometry.place(oid).unwrap();
            assert_eq!((run.page(entry), run.pot, 5 * entry), (page, pot, at));
            assert_eq!(run.oid(entry), oid);
        }
        for oid in [0, 99, 203, 999, 1020, u32::MAX] {
            assert_eq!(geometry.place(oid), None);
        }
    }

    #[test]
    fn a_home_block_tells_its_frame() {
        let geometry = example();
        assert_eq!(geometry.frame(8), None);
        assert_eq!(geometry.frame(135), None);
        for block in 9..135 {
            match geometry.frame(block).unwrap() {
                Frame::Pot(run) => assert_eq!(run.pot, block),
                Frame::Page { run, entry } => {
                    assert_eq!(run.page(entry), block);
                    assert_eq!(geometry.place(run.oid(entry)), Some((run, entry)));
                }
            }
        }
    }

    #[test]
    fn sizes_are_those_of_the_document() {
        for (p, e, whole) in [(2, 2, 4), (65, 65, 68), (251, 251, 256)] {
            assert_eq!(size(p, e), whole);
        }
        let ring = Ring { area: 8 };
        assert_eq!(ring.on(7, 3), 2);
        assert_eq!(ring.distance(7, 2), 3);
    }
}
