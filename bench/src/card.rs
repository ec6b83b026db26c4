//! The card that is measured: its geometry, and which pages have bytes.

use lane::{Range, BLOCK};

pub const AREA: usize = 512;
pub const FRAMES: usize = 64;
const RUN: u32 = 102;

/// Pages of the first range are written before anything is measured, those of the second never.
pub const FIRST: u32 = 1_000;
pub const WRITTEN: u32 = 40 * RUN;
const FRESH: u32 = FIRST + WRITTEN;
const UNWRITTEN: u32 = 32 * RUN;

pub const RANGES: [Range; 2] = [
    Range {
        first: FIRST,
        pages: WRITTEN,
    },
    Range {
        first: FRESH,
        pages: UNWRITTEN,
    },
];

/// Pages of a commit that needs no page-out: room is left for the pots that they change.
pub const WAITING: usize = FRAMES - 4;
/// Pages of a commit that nearly fills half the area.
pub const MANY: usize = 240;

/// The first page of the i-th run of pages never written.
pub fn fresh_page(i: u32) -> u32 {
    FRESH + i * RUN
}

/// The ranges as the library takes them: first OID and number of pages of each in turn.
pub fn numbers() -> [u32; 4] {
    let [a, b] = RANGES;
    [a.first, a.pages, b.first, b.pages]
}

/// Bytes of the card.
pub fn length() -> usize {
    let homes = WRITTEN + WRITTEN / RUN + UNWRITTEN + UNWRITTEN / RUN;
    (1 + AREA + homes as usize) * BLOCK
}
