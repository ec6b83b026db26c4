//! Random cards, from the smallest to the largest. The model is not asked
//! whether it allows one, so that it keeps none from the trials.

use crate::rng::Rng;
use model::geometry::RUN;
use model::{Geometry, Range};

/// Pages that a run has at least, where four runs fill a generation.
pub const FULL_RUN: usize = 62;

#[derive(Clone, Copy, Debug, PartialEq)]
pub enum Size {
    /// 11 to some 60 blocks, with an area that is soon full.
    Small,
    /// Up to some 2,000 blocks, with ranges of several runs.
    Middle,
    /// An area of 136 to 512 blocks, for directories of several blocks.
    Wide,
    /// An area of 512 blocks, for generations that take all of H.
    Full,
    /// Any number of blocks from 2,000 to 65,535.
    Large,
    /// 65,536 blocks.
    Largest,
}

/// Most cards are small, so that many calls are made on each block.
pub fn size(rng: &mut Rng) -> Size {
    match rng.below(1000) {
        0..2 => Size::Largest,
        2..6 => Size::Large,
        6..9 => Size::Full,
        9..34 => Size::Wide,
        34..134 => Size::Middle,
        _ => Size::Small,
    }
}

pub fn random(rng: &mut Rng, size: Size) -> Geometry {
    let (area, pages) = match size {
        Size::Small => (small_area(rng), pages(rng, 1, 6)),
        Size::Middle => (middle_area(rng), pages(rng, 1, 240)),
        Size::Wide => (wide_area(rng), pages(rng, 70, 400)),
        Size::Full => (512, full_runs(rng)),
        Size::Large => {
            let (area, blocks) = (rng.between(8, 512), rng.between(2000, 65_535));
            (area, filling(rng, blocks - 1 - area))
        }
        Size::Largest => {
            let area = rng.pick(&[8, 64, 511, 512]);
            (area, filling(rng, 65_535 - area))
        }
    };
    let home: usize = pages.iter().map(|n| blocks(*n)).sum();
    Geometry {
        blocks: 1 + area + home,
        area,
        ranges: with_oids(rng, &pages),
    }
}

fn small_area(rng: &mut Rng) -> usize {
    match rng.below(4) {
        0 => rng.between(8, 10),
        1 => rng.between(8, 40),
        _ => rng.between(8, 20),
    }
}

/// Mostly small; any A may come.
fn middle_area(rng: &mut Rng) -> usize {
    let most = rng.pick(&[64, 135, 512]);
    rng.between(8, most)
}

fn wide_area(rng: &mut Rng) -> usize {
    let any = rng.between(136, 511);
    rng.pick(&[any, any, 512])
}

/// Pages of 1 to 8 ranges; few ranges are the more likely.
fn pages(rng: &mut Rng, least: usize, most: usize) -> Vec<u32> {
    let ranges = match rng.below(4) {
        0 => rng.between(1, 8),
        1 => rng.between(1, 3),
        _ => 1,
    };
    (0..ranges)
        .map(|_| rng.between(least, most) as u32)
        .collect()
}

/// Ranges with four runs or more, each long enough for a full generation.
fn full_runs(rng: &mut Rng) -> Vec<u32> {
    let ranges = rng.pick(&[1, 2, 4, 8]);
    let before_last = (4usize.div_ceil(ranges) - 1) * RUN;
    (0..ranges)
        .map(|_| (before_last + rng.between(FULL_RUN, RUN)) as u32)
        .collect()
}

/// Ranges that take all home blocks. Not every number of ranges can.
fn filling(rng: &mut Rng, home: usize) -> Vec<u32> {
    loop {
        let mut pages = pages(rng, 1, home / 16);
        if fill_up(home, &mut pages).is_some() {
            return pages;
        }
    }
}

/// Makes the last range take the home blocks that the others leave, if some n
/// does.
fn fill_up(home: usize, pages: &mut [u32]) -> Option<()> {
    let (last, others) = pages.split_last_mut()?;
    let taken: usize = others.iter().map(|n| blocks(*n)).sum();
    let left = home.checked_sub(taken)?;
    *last = (left - left.div_ceil(1 + RUN)) as u32;
    (*last > 0 && blocks(*last) == left).then_some(())
}

fn blocks(pages: u32) -> usize {
    Range { first: 0, pages }.blocks()
}

/// Gives ranges their first OIDs: with and without gaps, from 0 on, up to
/// 4,294,967,295, or between.
fn with_oids(rng: &mut Rng, pages: &[u32]) -> Vec<Range> {
    let gaps: Vec<u64> = pages
        .iter()
        .map(|_| rng.pick(&[0, 0, 1, 7, 1000, 100_000_000]))
        .collect();
    let spaced: u64 = pages.iter().map(|n| u64::from(*n)).sum::<u64>() + gaps.iter().sum::<u64>();
    let spare = (1u64 << 32) - spaced;
    let mut oid = match rng.below(3) {
        0 => 0,
        1 => spare,
        _ => rng.next() % (spare + 1),
    };
    let mut ranges = Vec::new();
    for (n, gap) in pages.iter().zip(gaps) {
        oid += gap;
        ranges.push(Range {
            first: oid as u32,
            pages: *n,
        });
        oid += u64::from(*n);
    }
    ranges
}
