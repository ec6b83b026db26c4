//! The card of a day, and how the layer is opened on it.

use lane::{Range, BLOCK};
use std::fmt;

/// Pages that share a pot.
const RUN: u32 = 102;
/// Blocks of a pot and its pages.
const RUN_BLOCKS: usize = 1 + RUN as usize;

/// What the layer does where a change finds no room.
#[derive(Clone, Copy, Debug, PartialEq)]
pub enum Room {
    Refuse,
    Make,
    Commit,
}

#[derive(Clone, Debug)]
pub struct Shape {
    /// A, the blocks of the checkpoint area.
    pub area: usize,
    pub ranges: Vec<Range>,
    /// Frames of memory.
    pub frames: usize,
    pub room: Room,
}

impl Shape {
    /// Bytes of the card.
    pub fn length(&self) -> usize {
        let homes = self.ranges.iter().map(blocks);
        (1 + self.area + homes.sum::<usize>()) * BLOCK
    }

    /// The OID of each page, over the ranges in order.
    pub fn oids(&self) -> Vec<u32> {
        let ranges = self.ranges.iter();
        ranges
            .flat_map(|range| range.first..range.first + range.pages)
            .collect()
    }

    /// The home block of each page, over the ranges in order: every 103rd block of a range is a pot.
    pub fn homes(&self) -> Vec<usize> {
        let mut homes = Vec::new();
        let mut start = 1 + self.area;
        for range in &self.ranges {
            let pages = (0..blocks(range)).filter(|on| on % RUN_BLOCKS != 0);
            homes.extend(pages.map(|on| start + on));
            start += blocks(range);
        }
        homes
    }
}

/// Blocks of a range, pots and pages.
fn blocks(range: &Range) -> usize {
    (range.pages + range.pages.div_ceil(RUN)) as usize
}

impl fmt::Display for Shape {
    fn fmt(&self, f: &mut fmt::Formatter<'_>) -> fmt::Result {
        write!(f, "A {}, ranges", self.area)?;
        for range in &self.ranges {
            write!(f, " ({}, {})", range.first, range.pages)?;
        }
        write!(
            f,
            ", memory of {} frames, room {:?}",
            self.frames, self.room
        )
    }
}

#[cfg(test)]
mod tests {
    use super::*;

    /// The worked example of `docs/FORMAT.md`, "Ranges".
    #[test]
    fn pages_are_at_home_where_the_document_says() {
        let range = |first, pages| Range { first, pages };
        let shape = Shape {
            area: 8,
            ranges: vec![range(100, 103), range(1000, 20)],
            frames: 4,
            room: Room::Make,
        };
        assert_eq!(shape.length(), 135 * BLOCK);
        let homes: Vec<(u32, usize)> = shape.oids().into_iter().zip(shape.homes()).collect();
        for page in [(100, 10), (201, 111), (202, 113), (1005, 120), (1019, 134)] {
            assert!(homes.contains(&page), "{page:?}");
        }
    }
}
