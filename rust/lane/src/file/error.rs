use crate::Refusal;
use std::error;
use std::fmt;
use std::io;

/// Why a lane did not do what it was asked.
#[derive(Debug)]
#[non_exhaustive]
pub enum Error {
    /// The call was refused, with document 01's number.
    Refused(Refusal),
    /// The drive failed, or the system did. A lane that was open has stopped, and what it has not
    /// committed is lost: it is to be opened anew.
    Drive {
        /// What was being done.
        doing: Doing,
        /// The system's reason.
        source: io::Error,
    },
    /// A write or a flush failed before: the lane is to be opened anew.
    Stopped,
    /// Another process, or another lane of this one, has the card open; or the device is mounted.
    Busy,
    /// There is something, which create does not format over unasked.
    Exists,
    /// The file or device is not as long as its card.
    Length {
        /// Its bytes.
        found: u64,
        /// The card's.
        wanted: u64,
    },
    /// The drive cannot keep the promise that is asked for.
    Promise(Unkept),
}

/// What the drive was asked for when it failed.
#[derive(Clone, Copy, Debug, Eq, PartialEq)]
#[non_exhaustive]
pub enum Doing {
    /// Opening it.
    Open,
    /// Reading a card.
    Read,
    /// Writing blocks.
    Write,
    /// Flushing.
    Flush,
}

/// Why a drive cannot promise to keep a card at a power cut.
#[derive(Clone, Copy, Debug, Eq, PartialEq)]
#[non_exhaustive]
pub enum Unkept {
    /// There is no O_DIRECT for single blocks: a write would bring down its neighbours too.
    Direct,
    /// No block device is known below, so its sectors cannot be asked for.
    Device,
    /// A sector is not 512 bytes: a write of a block would rewrite its neighbours.
    Sector {
        /// Bytes that a write can have at least.
        logical: u32,
        /// Bytes that the device puts down as one.
        physical: u32,
    },
    /// The file system, by its number, is not known to write in place.
    FileSystem(i64),
}

impl Doing {
    /// The outcome of what was being done.
    pub(super) fn told<T>(self, outcome: io::Result<T>) -> Result<T, Error> {
        outcome.map_err(|source| Error::Drive {
            doing: self,
            source,
        })
    }
}

impl Error {
    /// The refusal, if it is one.
    pub fn refusal(&self) -> Option<Refusal> {
        match self {
            Error::Refused(refusal) => Some(*refusal),
            _ => None,
        }
    }
}

impl From<Refusal> for Error {
    fn from(refusal: Refusal) -> Error {
        Error::Refused(refusal)
    }
}

impl From<Unkept> for Error {
    fn from(unkept: Unkept) -> Error {
        Error::Promise(unkept)
    }
}

impl fmt::Display for Error {
    fn fmt(&self, f: &mut fmt::Formatter<'_>) -> fmt::Result {
        match self {
            Error::Refused(refusal) => refusal.fmt(f),
            Error::Drive { doing, source } => write!(f, "{doing} failed: {source}"),
            Error::Stopped => {
                f.write_str("stopped by a write or flush that failed: open the card anew")
            }
            Error::Busy => f.write_str("the card is open already, or its device is in use"),
            Error::Exists => f.write_str("something is there, which is not formatted over unasked"),
            Error::Length { found, wanted } => {
                write!(f, "{found} bytes, where the card has {wanted}")
            }
            Error::Promise(unkept) => write!(f, "the promise is not kept: {unkept}"),
        }
    }
}

impl fmt::Display for Doing {
    fn fmt(&self, f: &mut fmt::Formatter<'_>) -> fmt::Result {
        f.write_str(match self {
            Doing::Open => "open",
            Doing::Read => "read",
            Doing::Write => "write",
            Doing::Flush => "flush",
        })
    }
}

impl fmt::Display for Unkept {
    fn fmt(&self, f: &mut fmt::Formatter<'_>) -> fmt::Result {
        match self {
            Unkept::Direct => f.write_str("no O_DIRECT for blocks of 512 bytes here"),
            Unkept::Device => f.write_str("no block device is known below"),
            Unkept::Sector { logical, physical } => write!(
                f,
                "the sector has {physical} bytes, {logical} logical, where a block has 512"
            ),
            Unkept::FileSystem(number) => {
                write!(f, "file system {number:#x} is not known to write in place")
            }
        }
    }
}

impl error::Error for Error {
    fn source(&self) -> Option<&(dyn error::Error + 'static)> {
        match self {
            Error::Refused(refusal) => Some(refusal),
            Error::Drive { source, .. } => Some(source),
            _ => None,
        }
    }
}
