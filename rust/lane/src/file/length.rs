//! How long a card is, by its geometry.

use crate::{Range, BLOCK};

const AREA: std::ops::RangeInclusive<u32> = 8..=512;
const RANGES: std::ops::RangeInclusive<usize> = 1..=8;
/// Pages that share a pot.
const RUN: u64 = 102;

/// Bytes of a card with this geometry: header, area, and the pots and pages of each range.
pub fn of(area: usize, ranges: &[Range]) -> u64 {
    let homes = ranges.iter().map(|range| u64::from(range.pages));
    let homes: u64 = homes.map(|pages| pages + pages.div_ceil(RUN)).sum();
    (1u64.saturating_add(area as u64).saturating_add(homes)).saturating_mul(BLOCK as u64)
}

/// Bytes of the card that a header tells of, if that is a header of layout 1 with numbers within
/// the limits. Whether the card is a good one only start tells.
pub fn told_by(header: &[u8]) -> Option<u64> {
    let number = |at: usize| {
        let bytes = header.get(at..at + 4)?;
        Some(u32::from_le_bytes(bytes.try_into().ok()?))
    };
    let (area, count) = (number(12)?, number(16)? as usize);
    if number(0)? != 1 || !AREA.contains(&area) || !RANGES.contains(&count) {
        return None;
    }
    let mut ranges = [Range { first: 0, pages: 0 }; 8];
    for (i, range) in ranges[..count].iter_mut().enumerate() {
        range.pages = number(24 + 8 * i)?;
    }
    Some(of(area as usize, &ranges[..count]))
}
