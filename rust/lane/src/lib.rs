//! The lane page store, a proved library, with an interface that is safe to call.
//!
//! For a card in a file or on a block device [`mod@file`] has a store that is ready to use. What follows
//! is below it: the proved calls themselves, for who has no file system.
//!
//! A controller formats a card once. After every power-up it starts, and then lends the card and
//! its memory to each call of the [`Store`]. A snapshot marks all pages and counts; it is kept,
//! whatever cut comes, once [`Store::advance`] has written the header and asked for the flush after
//! it. [`Store::forecast`] tells how many advances that takes.
//!
//! ```
//! use lane::{format, Range, Refusal, Report, Store, BLOCK};
//!
//! # fn main() -> Result<(), Refusal> {
//! // A header, 8 blocks of checkpoint area, and one range: an allocation pot and a page.
//! let mut card = [0; 11 * BLOCK];
//! let mut memory = [0; 4 * BLOCK];
//! format(&mut card, 8, &[Range { first: 100, pages: 1 }])?;
//!
//! let mut store = Store::start(&card, &memory)?;
//! let key = store.key(&card, &memory, 100)?;
//! store.write(&card, &mut memory, key, 0, b"paid")?;
//! store.snapshot(&card, &memory)?;
//! while store.advance(&mut card, &memory)? != Report::H(0) {}
//! assert_eq!(store.advance(&mut card, &memory)?, Report::F(0));
//!
//! // The power fails, and only the card is left: memory holds any bytes.
//! let memory = [255; 4 * BLOCK];
//! let store = Store::start(&card, &memory)?;
//! let mut page = [0; BLOCK];
//! store.read(&card, &memory, key, &mut page)?;
//! assert_eq!(&page[..4], b"paid");
//! # Ok(())
//! # }
//! ```
//!
//! A refused call changes nothing, and says by a [`Refusal`] which of document 01's questions was
//! answered "no".
//!
//! Where the card is a copy of a device's blocks, the program writes the block that an advance or a
//! page-out reports, and no other, in any order and without waiting for it; at [`Report::F`] it
//! writes none and flushes the device before the next call. `include/lane.h` says what else program
//! and device owe.
//!
//! Stores are independent of each other, and may go from thread to thread. Calls that take `&self`
//! may run beside each other on one store.
//!
//! Without its default feature `file` the crate needs neither `std` nor an allocator: a [`Store`]
//! holds its record in place, of [`Store::RECORD`] bytes. The build takes `liblane.a` from the folder
//! that the environment variable LANE_LIB_DIR names by its whole path, else from `target/staticlib`,
//! where `c/library` puts it.

#![cfg_attr(not(feature = "file"), no_std)]
#![deny(missing_docs)]
#![deny(clippy::undocumented_unsafe_blocks)]

pub mod c;
#[cfg(feature = "file")]
pub mod file;
#[cfg(test)]
mod header;
mod raw;
mod refusal;
mod report;
mod store;

pub use refusal::Refusal;
pub use report::Report;
pub use store::Store;

/// The version of the library's interface that this crate is written for. [`format()`] and
/// [`Store::start`] compare it with the one of the library that is linked.
pub const VERSION: u32 = 3;

/// Bytes of a block, a page and a memory frame.
pub const BLOCK: usize = 512;

/// What names a page in a call: its object number, and its count when the key was made.
#[derive(Clone, Copy, Debug, Eq, Hash, PartialEq)]
pub struct Key {
    /// The object number.
    pub oid: u32,
    /// The allocation count, which a rescind raises.
    pub count: u32,
}

/// A home range: pages with object numbers that follow each other.
#[derive(Clone, Copy, Debug, Eq, Hash, PartialEq)]
pub struct Range {
    /// The first object number.
    pub first: u32,
    /// How many pages.
    pub pages: u32,
}

/// Makes a card of any bytes an empty one, with `area` blocks of checkpoint area, 8 to 512.
///
/// The card must have 1 + `area` blocks and, for each of the 1 to 8 ranges, a block for each page
/// and for each 102 of them or part of it.
///
/// # Errors
///
/// [`Card`](Refusal::Card) 3, [`Geometry`](Refusal::Geometry) 5.
///
/// # Panics
///
/// If the library's version is not [`VERSION`].
pub fn format(card: &mut [u8], area: usize, ranges: &[Range]) -> Result<(), Refusal> {
    // More than 8 ranges are refused 5, whatever they are: the first 9 tell the library as much.
    const MOST: usize = 9;
    same_version(raw::version());
    let mut numbers = [0; 2 * MOST];
    for (pair, range) in numbers.chunks_exact_mut(2).zip(ranges) {
        pair.copy_from_slice(&[range.first, range.pages]);
    }
    let told = 2 * ranges.len().min(MOST);
    Refusal::done(raw::format(card, area, &numbers[..told]))
}

/// Stops a program that is linked with a library of another version: no answer can be trusted.
fn same_version(library: u32) {
    assert!(
        library == VERSION,
        "liblane.a has version {library} of the interface, and this crate is for version {VERSION}"
    );
}
