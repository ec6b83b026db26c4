//! What stands in the card's blocks: header, pots, directory, trailer.

use crate::geometry::{Geometry, BLOCK, RUN};

pub type Block = [u8; BLOCK];

/// Directory entries that fill a block.
pub const ENTRIES: usize = 64;
/// The last 16 bytes of a trailer tell; the rest is zero.
pub const TRAILER_AT: usize = BLOCK - 16;

/// The block of that number.
pub fn get(card: &[u8], block: usize) -> Block {
    let mut bytes = [0; BLOCK];
    bytes.copy_from_slice(&card[block * BLOCK..(block + 1) * BLOCK]);
    bytes
}

pub fn put(card: &mut [u8], block: usize, bytes: &Block) {
    card[block * BLOCK..(block + 1) * BLOCK].copy_from_slice(bytes);
}

/// A stored number: unsigned, 32 bits, low byte first.
pub fn number(bytes: &[u8], at: usize) -> u32 {
    u32::from_le_bytes([bytes[at], bytes[at + 1], bytes[at + 2], bytes[at + 3]])
}

pub fn put_number(bytes: &mut [u8], at: usize, number: u32) {
    bytes[at..at + 4].copy_from_slice(&number.to_le_bytes());
}

/// The header; what it does not tell is written zero.
pub fn header(geometry: &Geometry, commit: u32, trailer: usize) -> Block {
    let mut bytes = [0; BLOCK];
    put_number(&mut bytes, 0, 1);
    put_number(&mut bytes, 4, commit);
    put_number(&mut bytes, 8, trailer as u32);
    put_number(&mut bytes, 12, geometry.area as u32);
    put_number(&mut bytes, 16, geometry.ranges.len() as u32);
    for (i, range) in geometry.ranges.iter().enumerate() {
        put_number(&mut bytes, 20 + 8 * i, range.first);
        put_number(&mut bytes, 24 + 8 * i, range.pages);
    }
    bytes
}

/// A pot as format writes it: all 102 counts 0 and flags 1.
pub fn fresh_pot() -> Block {
    let mut bytes = [0; BLOCK];
    for i in 0..RUN {
        bytes[5 * i + 4] = 1;
    }
    bytes
}

/// One directory block with up to 64 entries (frame, area block).
pub fn directory(entries: &[(usize, usize)]) -> Block {
    let mut bytes = [0; BLOCK];
    for (i, (frame, block)) in entries.iter().enumerate() {
        put_number(&mut bytes, 8 * i, *frame as u32);
        put_number(&mut bytes, 8 * i + 4, *block as u32);
    }
    bytes
}

pub fn trailer(commit: u32, first: usize, p: usize, e: usize) -> Block {
    let mut bytes = [0; BLOCK];
    put_number(&mut bytes, TRAILER_AT, commit);
    put_number(&mut bytes, TRAILER_AT + 4, first as u32);
    put_number(&mut bytes, TRAILER_AT + 8, p as u32);
    put_number(&mut bytes, TRAILER_AT + 12, e as u32);
    bytes
}
