//! The card in a file or on a drive: a store that is ready to use.
//!
//! A [`Lane`] owns the drive, the card's bytes, memory and the [`Store`](crate::Store). It brings
//! every block that the store writes to the drive, and flushes where the store asks for it and
//! nowhere else: a commit of any size waits for two flushes.
//!
//! ```
//! use lane::file::{Lane, Options, Promise};
//! use lane::{Range, BLOCK};
//!
//! # fn main() -> Result<(), lane::file::Error> {
//! # let path = std::env::temp_dir().join(format!("lane-{}.card", std::process::id()));
//! // Once: an empty card with 24 blocks of checkpoint area and 1,000 pages from OID 100 on.
//! # let kill = Options::new().promise(Promise::Kill).clone();
//! # if false {
//! let mut lane = Lane::create(&path, 24, &[Range { first: 100, pages: 1_000 }])?;
//! # }
//! # let mut lane = kill.create(&path, 24, &[Range { first: 100, pages: 1_000 }])?;
//! let tag = lane.key(100)?;
//! lane.write(tag, 0, b"paid")?;
//! lane.commit()?; // no cut takes it away from here on
//! # drop(lane);
//!
//! // After every power-up:
//! # let lane = kill.open(&path)?;
//! # if false {
//! let lane = Lane::open(&path)?;
//! # }
//! let mut page = [0; BLOCK];
//! lane.read(tag, &mut page)?;
//! assert_eq!(&page[..4], b"paid");
//! # std::fs::remove_file(&path).unwrap();
//! # Ok(())
//! # }
//! ```
//!
//! **What it rests on.** Blocks that are written between two flushes may go down in any order, and a
//! cut may leave any bytes in them: that is proved harmless. So they are gathered and go down
//! together, neighbours in one write; only the header goes by itself. What the drive owes is said at
//! [`Drive`]; [`Promise`] says how much of it is asked for.
//!
//! **One process.** A card that is open is locked ([`Error::Busy`]). The lock is advisory: a program
//! that writes the file without asking for it breaks the card. A lane is not used after a fork.

#![deny(unsafe_code)]

mod card;
mod disk;
mod drive;
mod error;
mod gathered;
mod lane;
mod length;
mod opened;
mod options;
mod recorder;
#[allow(unsafe_code)]
mod sys;

pub use card::Card;
pub use disk::Disk;
pub use drive::{Drive, Run};
pub use error::{Doing, Error, Unkept};
pub use lane::Lane;
pub use options::{Options, Promise, Room};
pub use recorder::{Event, Recorder};
