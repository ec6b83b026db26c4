//! A plain model of the lane page store, to be read beside document 01 and
//! what document 02 says of gaps (#101), of the forecast (#102), of empty pages
//! (#104) and of flushes (#110).
//!
//! It is slow and simple on purpose: vectors, a map, and each sentence of the
//! documents where one looks for it. It has its own card, and each call answers
//! either what was done (with the block that was written) or the number of the
//! first question whose answer is "no".

pub mod blocks;
pub mod book;
pub mod generation;
pub mod geometry;
mod model;
mod start;
pub mod store;

pub use book::{Book, Page};
pub use geometry::{Geometry, Range};
pub use model::{Lent, Model};
pub use store::{Kind, Phase, Store};

/// The number of the first question answered "no".
pub type Refusal = u32;

/// 4,294,967,295: no count and no commit number goes above it.
pub const LAST_NUMBER: u32 = u32::MAX;
