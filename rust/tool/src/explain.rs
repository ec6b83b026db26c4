//! Why a start refuses a card: the numbers behind the first question that is answered "no".
//!
//! The library alone says whether a card is accepted, and by which number it is refused. What is
//! worked out here stands beside its answer, in a [`Verdict`](crate::verdict::Verdict).

use crate::card::{
    block, card_blocks, end, number, size, Entry, Header, Ring, Trailer, BLOCKS, MOST_RANGES,
};
use crate::text::{counted, span, thousands};
use lane::{Range, BLOCK};
use std::fmt;

/// A question that was answered "no", by its number, and the numbers behind it.
#[derive(Clone, Debug, PartialEq)]
pub struct Finding {
    pub number: u32,
    pub text: String,
}

impl fmt::Display for Finding {
    fn fmt(&self, f: &mut fmt::Formatter<'_>) -> fmt::Result {
        write!(f, "{}: {}", self.number, self.text)
    }
}

/// What is asked: the bytes that start was lent, and how long the card is that they are of. A file
/// longer than any card is not lent whole.
#[derive(Clone, Copy)]
pub struct Sight<'a> {
    pub bytes: &'a [u8],
    pub length: u64,
    /// A device, of which the header may tell that the card is a part.
    pub device: bool,
}

impl<'a> Sight<'a> {
    pub fn of(bytes: &'a [u8]) -> Sight<'a> {
        Sight {
            bytes,
            length: bytes.len() as u64,
            device: false,
        }
    }

    fn header(&self) -> Header {
        Header::of(block(self.bytes, 0))
    }

    fn ring(&self) -> Ring {
        let area = self.header().area as usize;
        Ring { area }
    }

    fn trailer(&self) -> Trailer {
        Trailer::of(block(self.bytes, self.header().trailer as usize))
    }
}

/// Says why it is answered "no"; those before it have been answered "yes".
pub type Question = fn(&Sight) -> Option<String>;

/// Start's questions in its order. Question 1 is of memory, 2 of a record.
pub const QUESTIONS: [(u32, Question); 6] = [
    (3, length),
    (4, layout),
    (5, geometry),
    (6, commit),
    (7, trailer),
    (8, directory),
];

/// The first of these questions that is answered "no".
pub fn first_no(questions: &[(u32, Question)], sight: &Sight) -> Option<Finding> {
    questions.iter().find_map(|(number, question)| {
        let text = question(sight)?;
        let number = *number;
        Some(Finding { number, text })
    })
}

/// Why a start refuses it; nothing if it does not.
pub fn finding(sight: &Sight) -> Option<Finding> {
    first_no(&QUESTIONS, sight)
}

/// Why a format with that area and those ranges is refused.
pub fn format_finding(area: u32, ranges: &[Range]) -> Option<Finding> {
    let mut header = [0; BLOCK];
    let numbers = ranges.iter().flat_map(|range| [range.first, range.pages]);
    let stored = [1, 0, 0, area, ranges.len() as u32].into_iter();
    for (place, number) in header.chunks_exact_mut(4).zip(stored.chain(numbers)) {
        place.copy_from_slice(&number.to_le_bytes());
    }
    let sight = Sight {
        bytes: &header,
        length: BLOCK as u64 * card_blocks(area, ranges),
        device: false,
    };
    first_no(&QUESTIONS[..3], &sight)
}

/// Question 3: 11 to 65,536 whole blocks.
fn length(sight: &Sight) -> Option<String> {
    let blocks = sight.length / BLOCK as u64;
    if !sight.length.is_multiple_of(BLOCK as u64) {
        return Some(format!(
            "{} bytes are no whole blocks",
            thousands(sight.length)
        ));
    }
    if blocks < *BLOCKS.start() {
        let said = counted(blocks as usize, "block is", "blocks are");
        return Some(format!("{said} too few, a card has at least 11"));
    }
    (blocks > *BLOCKS.end()).then(|| {
        let said = thousands(blocks);
        let header = if sight.device {
            ", and the device's header tells of none"
        } else {
            ""
        };
        format!("{said} blocks are too many, a card has at most 65,536{header}")
    })
}

/// Question 4: layout 1.
fn layout(sight: &Sight) -> Option<String> {
    let layout = number(sight.bytes, 0);
    (layout != 1).then(|| format!("the layout is {layout}"))
}

/// Question 5: limits of A and the ranges, which fill the card.
fn geometry(sight: &Sight) -> Option<String> {
    let header = sight.header();
    area(&header)
        .or_else(|| ranges(&header))
        .or_else(|| fill(&header, sight.length / BLOCK as u64))
}

fn area(header: &Header) -> Option<String> {
    let area = header.area;
    (!(8..=512).contains(&area)).then(|| format!("A is {}, not 8 to 512", thousands(area)))
}

fn ranges(header: &Header) -> Option<String> {
    if !(1..=MOST_RANGES).contains(&header.count) {
        let count = thousands(header.count);
        return Some(format!("the number of ranges is {count}, not 1 to 8"));
    }
    let ends = std::iter::once(0).chain(header.ranges.iter().map(end));
    let mut places = header.ranges.iter().zip(ends).enumerate();
    places.find_map(|(i, (range, before))| one_range(i, range, before))
}

/// `before` is the end of the range before.
fn one_range(i: usize, range: &Range, before: u64) -> Option<String> {
    let first = range.first;
    if range.pages == 0 {
        return Some(format!("range {i} has no page"));
    }
    if u64::from(first) < before {
        let last = before - 1;
        return Some(format!(
            "range {i} begins at OID {first}, the one before it ends at OID {last}"
        ));
    }
    let last = end(range) - 1;
    (last > u64::from(u32::MAX))
        .then(|| format!("range {i} ends at OID {last}, above {}", u32::MAX))
}

fn fill(header: &Header, blocks: u64) -> Option<String> {
    let told = card_blocks(header.area, &header.ranges);
    (told != blocks).then(|| {
        let blocks = thousands(blocks);
        format!("the ranges end at block {told}, the card has {blocks}")
    })
}

/// Blocks of the card that a header tells of, if its layout, A and number of ranges keep their
/// limits.
pub fn told_blocks(header: &Header) -> Option<u64> {
    let count = (1..=MOST_RANGES).contains(&header.count);
    let kept = header.layout == 1 && area(header).is_none() && count;
    kept.then(|| card_blocks(header.area, &header.ranges))
}

/// Question 6: commit number and trailer block go together.
fn commit(sight: &Sight) -> Option<String> {
    let Header {
        commit, trailer, ..
    } = sight.header();
    if (commit == 0) != (trailer == 0) {
        let commit = thousands(commit);
        return Some(format!("commit {commit} with trailer {trailer}"));
    }
    let ring = sight.ring();
    (commit > 0 && !ring.has(trailer.into())).then(|| {
        format!(
            "the trailer is block {trailer}, the area has 1 to {}",
            ring.area
        )
    })
}

/// Question 7: the trailer is the header's, and its sums fit.
fn trailer(sight: &Sight) -> Option<String> {
    if sight.header().commit == 0 {
        return None;
    }
    trailer_commit(sight)
        .or_else(|| first_block(sight))
        .or_else(|| entries_and_pages(sight))
        .or_else(|| generation_size(sight))
        .or_else(|| trailer_block(sight))
}

fn trailer_commit(sight: &Sight) -> Option<String> {
    let (header, trailer) = (sight.header(), sight.trailer());
    (trailer.commit != header.commit).then(|| {
        let (block, of) = (header.trailer, thousands(trailer.commit));
        let commit = thousands(header.commit);
        format!("the trailer in block {block} is of commit {of}, the header of {commit}")
    })
}

fn first_block(sight: &Sight) -> Option<String> {
    let (ring, first) = (sight.ring(), sight.trailer().first);
    (!ring.has(first.into())).then(|| {
        format!(
            "the first block is {first}, the area has 1 to {}",
            ring.area
        )
    })
}

fn entries_and_pages(sight: &Sight) -> Option<String> {
    let Trailer { p, e, .. } = sight.trailer();
    if e == 0 {
        return Some("e is 0".into());
    }
    (e > p).then(|| format!("e {} is above p {}", thousands(e), thousands(p)))
}

fn generation_size(sight: &Sight) -> Option<String> {
    let (trailer, half) = (sight.trailer(), sight.ring().half());
    let size = size(trailer.p.into(), trailer.e.into());
    (size > half as u64).then(|| format!("size {} is above H {half}", thousands(size)))
}

fn trailer_block(sight: &Sight) -> Option<String> {
    let (found, trailer) = (sight.header().trailer as usize, sight.trailer());
    let size = size(trailer.p.into(), trailer.e.into()) as usize;
    let first = trailer.first as usize;
    let wanted = sight.ring().on(first, size - 1);
    (wanted != found).then(|| {
        format!("size {size} from block {first} on ends at block {wanted}, the trailer is {found}")
    })
}

/// Question 8: entries rise, and name home frames and page blocks.
fn directory(sight: &Sight) -> Option<String> {
    if sight.header().commit == 0 {
        return None;
    }
    let (ring, Trailer { first, p, e, .. }) = (sight.ring(), sight.trailer());
    let (first, p) = (first as usize, p as usize);
    let entries = ring.entries(sight.bytes, first, p, e as usize);
    let blocks = sight.bytes.len() / BLOCK;
    let mut places = entries.iter().enumerate();
    places.find_map(|(i, entry)| {
        let before = i.checked_sub(1).map(|i| entries[i].frame);
        names_home(i, entry, ring, blocks)
            .or_else(|| rises(i, entry, before))
            .or_else(|| names_page_block(i, entry, ring, first, p))
    })
}

fn rises(i: usize, entry: &Entry, before: Option<u32>) -> Option<String> {
    let before = before.filter(|before| *before >= entry.frame)?;
    let frame = entry.frame;
    Some(format!(
        "entry {i} names frame {frame}, the one before it frame {before}"
    ))
}

fn names_home(i: usize, entry: &Entry, ring: Ring, blocks: usize) -> Option<String> {
    let home = (1 + ring.area..blocks).contains(&(entry.frame as usize));
    (!home).then(|| {
        let frame = entry.frame;
        format!("entry {i} names frame {frame}, which is no home block")
    })
}

fn names_page_block(i: usize, entry: &Entry, ring: Ring, first: usize, p: usize) -> Option<String> {
    let block = entry.block;
    let among = ring.has(block.into()) && ring.distance(first, block as usize) < p;
    (!among).then(|| {
        let pages = span(first, ring.on(first, p - 1));
        format!("entry {i} names block {block}, which is no page block ({pages})")
    })
}

#[cfg(test)]
mod tests {
    use super::*;

    #[test]
    fn a_geometry_that_format_refuses_is_explained() {
        let range = |first, pages| Range { first, pages };
        let said = |area, ranges: &[Range]| {
            format_finding(area, ranges).map_or_else(|| "none".into(), |found| found.to_string())
        };
        assert_eq!(said(8, &[range(100, 1)]), "none");
        assert_eq!(said(7, &[range(100, 2)]), "5: A is 7, not 8 to 512");
        assert_eq!(
            said(8, &[]),
            "3: 9 blocks are too few, a card has at least 11"
        );
        assert_eq!(said(10, &[]), "5: the number of ranges is 0, not 1 to 8");
        assert_eq!(
            said(12, &[range(1, 9), range(9, 1)]),
            "5: range 1 begins at OID 9, the one before it ends at OID 9"
        );
        assert_eq!(
            said(512, &[range(1, 65_000)]),
            "3: 66,151 blocks are too many, a card has at most 65,536"
        );
    }
}
