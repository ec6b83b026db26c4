//! The calls with their arguments, and what they answer.

use crate::rng::Rng;
use model::Kind;
use std::fmt;

/// The most bytes a read or write is lent.
pub const MOST_BYTES: usize = 600;

#[derive(Clone, Debug, PartialEq)]
pub enum Call {
    Format {
        area: usize,
        ranges: Vec<u32>,
    },
    Start,
    Key {
        oid: u32,
    },
    Read {
        oid: u32,
        count: u32,
        length: usize,
    },
    /// The bytes come from the seed `fill`.
    Write {
        oid: u32,
        count: u32,
        at: usize,
        length: usize,
        fill: u64,
    },
    Rescind {
        oid: u32,
        count: u32,
    },
    Snapshot,
    PageOut,
    Advance,
    Forecast,
}

/// The calls' names, in the order of `Call::row`.
pub const NAMES: [&str; 10] = [
    "format", "start", "key", "read", "write", "rescind", "snapshot", "page-out", "advance",
    "forecast",
];

impl Call {
    pub fn name(&self) -> &'static str {
        NAMES[self.row()]
    }

    pub fn row(&self) -> usize {
        match self {
            Call::Format { .. } => 0,
            Call::Start => 1,
            Call::Key { .. } => 2,
            Call::Read { .. } => 3,
            Call::Write { .. } => 4,
            Call::Rescind { .. } => 5,
            Call::Snapshot => 6,
            Call::PageOut => 7,
            Call::Advance => 8,
            Call::Forecast => 9,
        }
    }

    pub fn oid(&self) -> Option<u32> {
        match *self {
            Call::Key { oid }
            | Call::Read { oid, .. }
            | Call::Write { oid, .. }
            | Call::Rescind { oid, .. } => Some(oid),
            _ => None,
        }
    }

    /// The count of its key.
    pub fn count_mut(&mut self) -> Option<&mut u32> {
        match self {
            Call::Read { count, .. } | Call::Write { count, .. } | Call::Rescind { count, .. } => {
                Some(count)
            }
            _ => None,
        }
    }

    /// Does it change memory, if it is done?
    pub fn changes_memory(&self) -> bool {
        match self {
            Call::Write { length, .. } => *length > 0,
            Call::Rescind { .. } => true,
            _ => false,
        }
    }

    /// Does it change the record, if it is done? Format is lent none.
    pub fn changes_record(&self) -> bool {
        match self {
            Call::Format { .. } | Call::Key { .. } | Call::Read { .. } | Call::Forecast => false,
            Call::Write { length, .. } => *length > 0,
            Call::Start | Call::Rescind { .. } => true,
            Call::Snapshot | Call::PageOut | Call::Advance => true,
        }
    }

    /// The buffer that is lent to it, with a margin that no call may touch.
    pub fn buffer(&self) -> Buffer {
        let mut buffer = Buffer {
            bytes: [0; MOST_BYTES + MARGIN],
            length: 0,
        };
        match *self {
            Call::Read { length, .. } => {
                buffer.length = length.min(MOST_BYTES);
                Rng::new(length as u64).fill(&mut buffer.bytes);
            }
            Call::Write { length, fill, .. } => {
                buffer.length = length.min(MOST_BYTES);
                Rng::new(fill).fill(&mut buffer.bytes);
            }
            _ => {}
        }
        buffer
    }
}

const MARGIN: usize = 40;

#[derive(Clone, Copy, PartialEq)]
pub struct Buffer {
    pub bytes: [u8; MOST_BYTES + MARGIN],
    length: usize,
}

impl Buffer {
    pub fn lent(&self) -> &[u8] {
        &self.bytes[..self.length]
    }

    pub fn lend(&mut self) -> &mut [u8] {
        &mut self.bytes[..self.length]
    }
}

#[derive(Clone, Copy, Debug, PartialEq, Eq)]
pub enum Answer {
    Refused(u32),
    Done,
    Count(u32),
    Wrote(Kind, usize),
    /// Advances until a snapshot is safe.
    Foretold(usize),
    /// Nothing the interface knows, such as a seventh kind.
    Strange,
}

impl Answer {
    /// 0 or the number of the refusal.
    pub fn number(&self) -> Option<u32> {
        match self {
            Answer::Refused(number) => Some(*number),
            Answer::Strange => None,
            _ => Some(0),
        }
    }

    pub fn is_done(&self) -> bool {
        self.number() == Some(0)
    }
}

impl fmt::Display for Answer {
    fn fmt(&self, f: &mut fmt::Formatter) -> fmt::Result {
        match self {
            Answer::Refused(number) => write!(f, "{number}"),
            Answer::Done => write!(f, "done"),
            Answer::Count(count) => write!(f, "count {count}"),
            Answer::Wrote(kind, block) => write!(f, "{kind:?} {block}"),
            Answer::Foretold(advances) => write!(f, "{advances} to come"),
            Answer::Strange => write!(f, "nothing the interface knows"),
        }
    }
}
