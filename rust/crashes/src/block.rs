//! Blocks, and numbers that tell them apart.

use lane::BLOCK;

pub type Block = [u8; BLOCK];

pub const ZEROS: Block = [0; BLOCK];

/// The header's block.
pub const HEADER: usize = 0;

/// The block of a card; past its end zeros, as in a file that is made longer.
pub fn block(card: &[u8], number: usize) -> Block {
    let mut block = [0; BLOCK];
    let from = (number * BLOCK).min(card.len());
    let to = (from + BLOCK).min(card.len());
    block[..to - from].copy_from_slice(&card[from..to]);
    block
}

/// The commit number in a header.
pub fn commit(header: &[u8]) -> u32 {
    u32::from_le_bytes(header[4..8].try_into().expect("four bytes"))
}

/// The block of the trailer that a header names.
pub fn trailer(header: &[u8]) -> u32 {
    u32::from_le_bytes(header[8..12].try_into().expect("four bytes"))
}

/// A number of this block's bytes at this place.
pub fn mixed(place: u64, bytes: &Block) -> u64 {
    let words = bytes.chunks_exact(8).map(|word| {
        let word: [u8; 8] = word.try_into().expect("eight bytes");
        u64::from_le_bytes(word)
    });
    let begin = (place + 1).wrapping_mul(0x9E37_79B9_7F4A_7C15);
    let sum = words.fold(begin, |sum, word| {
        let next = (sum ^ word).wrapping_mul(0xFF51_AFD7_ED55_8CCD);
        next ^ (next >> 29)
    });
    (sum ^ (sum >> 32)).wrapping_mul(0xC4CE_B9FE_1A85_EC53)
}

/// A number of a whole card's bytes.
pub fn card_mark(card: &[u8]) -> u64 {
    let blocks = 0..card.len().div_ceil(BLOCK);
    blocks.fold(0, |sum, number| {
        sum ^ mixed(number as u64, &block(card, number))
    })
}
