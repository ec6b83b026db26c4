//! The card's geometry: header, checkpoint area, home ranges.

use crate::Refusal;

/// Bytes of a block, a page, a pot and a memory frame.
pub const BLOCK: usize = 512;
/// Pages of one allocation pot.
pub const RUN: usize = 102;

/// One home range: `pages` OIDs from `first` on.
#[derive(Clone, Copy, Debug, PartialEq, Eq)]
pub struct Range {
    pub first: u32,
    pub pages: u32,
}

impl Range {
    /// A range takes n + n/102 blocks, this division rounded up.
    pub fn blocks(&self) -> usize {
        let n = self.pages as usize;
        n + n.div_ceil(RUN)
    }

    /// The OID after the last one, which may be 4,294,967,296.
    pub fn end(&self) -> u64 {
        u64::from(self.first) + u64::from(self.pages)
    }
}

/// Where an OID lives at home.
#[derive(Clone, Copy, Debug, PartialEq, Eq)]
pub struct Place {
    /// Home block of the page.
    pub page: usize,
    /// Home block of its pot.
    pub pot: usize,
    /// Its byte position in the pot.
    pub at: usize,
}

#[derive(Clone, Debug, PartialEq, Eq)]
pub struct Geometry {
    /// Blocks of the card.
    pub blocks: usize,
    /// A, the blocks of the checkpoint area.
    pub area: usize,
    pub ranges: Vec<Range>,
}

/// Question 3: is the card 11 to 65,536 whole blocks?
pub fn card_blocks(bytes: usize) -> Option<usize> {
    whole_blocks(bytes).filter(|blocks| (11..=65_536).contains(blocks))
}

/// Question 1: is memory 4 to 64 whole frames?
pub fn memory_frames(bytes: usize) -> Option<usize> {
    whole_blocks(bytes).filter(|frames| (4..=64).contains(frames))
}

fn whole_blocks(bytes: usize) -> Option<usize> {
    bytes.is_multiple_of(BLOCK).then_some(bytes / BLOCK)
}

impl Geometry {
    /// Question 5: do A and the ranges keep the limits and fill the card
    /// exactly? `numbers` is first OID and n of each range in turn.
    pub fn new(blocks: usize, area: usize, numbers: &[u32]) -> Option<Geometry> {
        let whole_ranges = numbers.len().is_multiple_of(2) && (2..=16).contains(&numbers.len());
        if !whole_ranges || !(8..=512).contains(&area) {
            return None;
        }
        let ranges: Vec<Range> = numbers
            .chunks(2)
            .map(|pair| Range {
                first: pair[0],
                pages: pair[1],
            })
            .collect();
        let geometry = Geometry {
            blocks,
            area,
            ranges,
        };
        (geometry.ranges_keep_limits() && geometry.fills_card()).then_some(geometry)
    }

    /// n is at least 1; OIDs rise, don't overlap and end below 4,294,967,296.
    fn ranges_keep_limits(&self) -> bool {
        let mut free = 0;
        for range in &self.ranges {
            if range.pages == 0 || u64::from(range.first) < free || range.end() > 1 << 32 {
                return false;
            }
            free = range.end();
        }
        true
    }

    fn fills_card(&self) -> bool {
        let home: usize = self.ranges.iter().map(Range::blocks).sum();
        1 + self.area + home == self.blocks
    }

    /// H, the most blocks of one generation.
    pub fn half(&self) -> usize {
        self.area / 2
    }

    /// The area block `on` blocks after `block`: after A comes 1.
    pub fn ring(&self, block: usize, on: usize) -> usize {
        (block - 1 + on) % self.area + 1
    }

    /// How many blocks `block` stands on from `first` in the ring.
    pub fn ring_distance(&self, first: usize, block: usize) -> usize {
        (block + self.area - first) % self.area
    }

    pub fn in_area(&self, block: usize) -> bool {
        (1..=self.area).contains(&block)
    }

    pub fn is_home(&self, block: usize) -> bool {
        (1 + self.area..self.blocks).contains(&block)
    }

    /// The ranges with the first block of each.
    fn placed_ranges(&self) -> Vec<(usize, Range)> {
        let mut block = 1 + self.area;
        let mut placed = Vec::new();
        for range in &self.ranges {
            placed.push((block, *range));
            block += range.blocks();
        }
        placed
    }

    /// Questions 21 and 9: is the OID in a range, and then where?
    pub fn place(&self, oid: u32) -> Result<Place, Refusal> {
        let holds = |range: &Range| range.first <= oid && u64::from(oid) < range.end();
        let mut placed = self.placed_ranges().into_iter();
        let (block, range) = placed
            .find(|(_, range)| holds(range))
            .ok_or_else(|| self.missing(oid))?;
        let r = (oid - range.first) as usize;
        Ok(Place {
            page: block + r + r / RUN + 1,
            pot: block + 103 * (r / RUN),
            at: 5 * (r % RUN),
        })
    }

    /// Of an OID in no range: 21 between two ranges, 9 below the first or above
    /// the last.
    fn missing(&self, oid: u32) -> Refusal {
        let mut neighbours = self.ranges.windows(2);
        let between = neighbours.any(|pair| pair[0].end() <= oid.into() && oid < pair[1].first);
        if between {
            21
        } else {
            9
        }
    }

    /// The place of the page that is home at that block, if it is no pot.
    pub fn page_at(&self, block: usize) -> Option<Place> {
        let placed = self.placed_ranges();
        let (start, _) = placed.into_iter().rfind(|(start, _)| *start <= block)?;
        let x = block - start;
        let entry = (x % 103).checked_sub(1)?;
        Some(Place {
            page: block,
            pot: start + 103 * (x / 103),
            at: 5 * entry,
        })
    }

    /// The home blocks of all pots.
    pub fn pots(&self) -> Vec<usize> {
        let mut pots = Vec::new();
        for (block, range) in self.placed_ranges() {
            let runs = (range.pages as usize).div_ceil(RUN);
            pots.extend((0..runs).map(|run| block + 103 * run));
        }
        pots
    }
}
