//! A list of calls and cuts, on one card.

use crate::call::Call;
use crate::drive::{Down, Left};
use model::Geometry;
use std::fmt;

/// A card, what it holds before its format, and what is done with it.
#[derive(Clone, Debug)]
pub struct List {
    pub geometry: Geometry,
    /// Frames of the memory that is lent first.
    pub frames: usize,
    /// Seed of the bytes before the format; 0 is a card of zeros.
    pub filler: u64,
    pub steps: Vec<Step>,
}

#[derive(Clone, Debug, PartialEq)]
pub enum Step {
    /// In a list the count of a key is told as its distance from the present
    /// one, so that a list keeps its sense when calls before it are dropped.
    Call { call: Call, lending: Lending },
    /// A power cut, between calls or in one, and a start.
    Cut {
        call: Option<Call>,
        down: Down,
        left: Left,
        restart: Restart,
    },
    /// With all writes down, the kept commit number is rewritten, in header
    /// and trailer.
    DoctorCommit(u32),
    /// With all writes down, the kept count and flags of a page are rewritten,
    /// and the spare bytes of its pot.
    DoctorPot { oid: u32, count: u32, flags: u8 },
    /// With all writes down, a start that is lent so many blocks finds this A
    /// and these ranges in the header, which is then put back.
    DoctorGeometry {
        blocks: usize,
        area: u32,
        ranges: Vec<u32>,
    },
}

/// Bytes lent of card and memory; `None` is the right length.
#[derive(Clone, Copy, Debug, Default, PartialEq)]
pub struct Lending {
    pub card: Option<usize>,
    pub memory: Option<usize>,
}

/// The start after a cut.
#[derive(Clone, Copy, Debug, PartialEq)]
pub struct Restart {
    pub frames: usize,
    /// Seed of what record and memory hold; 0 is zeros.
    pub lost: u64,
    /// Is there another cut in this start?
    pub again: bool,
}

impl Step {
    /// A call that is lent the whole card and memory.
    pub fn plain(call: Call) -> Step {
        let lending = Lending::default();
        Step::Call { call, lending }
    }
}

impl Restart {
    pub fn plain(frames: usize) -> Restart {
        Restart {
            frames,
            lost: 0,
            again: false,
        }
    }
}

/// First OID and n of each range in turn.
pub fn numbers(geometry: &Geometry) -> Vec<u32> {
    let ranges = geometry.ranges.iter();
    ranges
        .flat_map(|range| [range.first, range.pages])
        .collect()
}

impl fmt::Display for List {
    fn fmt(&self, f: &mut fmt::Formatter) -> fmt::Result {
        writeln!(
            f,
            "card of {} blocks, A {}, ranges {:?}, filler {:#x}, memory of {} frames; format, start",
            self.geometry.blocks,
            self.geometry.area,
            numbers(&self.geometry),
            self.filler,
            self.frames
        )?;
        for (i, step) in self.steps.iter().enumerate() {
            writeln!(f, "  {}: {step}", i + 1)?;
        }
        writeln!(f, "  {}: a last look, start and look", self.steps.len() + 1)
    }
}

impl fmt::Display for Step {
    fn fmt(&self, f: &mut fmt::Formatter) -> fmt::Result {
        match self {
            Step::Call { call, lending } => {
                write!(f, "{call}")?;
                if let Some(card) = lending.card {
                    write!(f, ", lent {card} bytes of card")?;
                }
                if let Some(memory) = lending.memory {
                    write!(f, ", lent {memory} bytes of memory")?;
                }
                Ok(())
            }
            Step::Cut {
                call,
                down,
                left,
                restart,
            } => {
                write!(f, "cut")?;
                if let Some(call) = call {
                    write!(f, " in {call}")?;
                }
                write!(f, ", {down}, the last one {left:?}")?;
                if restart.lost != 0 {
                    let seed = restart.lost;
                    write!(f, ", record and memory hold bytes of seed {seed:#x}")?;
                }
                let again = if restart.again { ", cut, start" } else { "" };
                write!(f, ", start with {} frames{again}", restart.frames)
            }
            Step::DoctorCommit(commit) => write!(f, "flushed, commit becomes {commit}, start"),
            Step::DoctorPot { oid, count, flags } => write!(
                f,
                "flushed, OID {oid} gets count {count}, flags {flags}, start"
            ),
            Step::DoctorGeometry {
                blocks,
                area,
                ranges,
            } => write!(
                f,
                "flushed, header gets A {area} ranges {ranges:?}, start with {blocks} blocks, \
                 header put back, start"
            ),
        }
    }
}

impl fmt::Display for Down {
    fn fmt(&self, f: &mut fmt::Formatter) -> fmt::Result {
        match self {
            Down::All => write!(f, "all writes down"),
            Down::Any(seed) => write!(f, "unflushed writes down by seed {seed:#x}"),
            Down::Blocks(blocks) => write!(f, "of unflushed writes {blocks:?} down"),
        }
    }
}

/// As in a list, a key's count is told from the present one.
impl fmt::Display for Call {
    fn fmt(&self, f: &mut fmt::Formatter) -> fmt::Result {
        let name = self.name();
        match self {
            Call::Format { area, ranges } => write!(f, "{name} A {area} ranges {ranges:?}"),
            Call::Key { oid } => write!(f, "{name} {oid}"),
            Call::Read { oid, count, length } => {
                write!(f, "{name} {oid} count present+{count} length {length}")
            }
            Call::Write {
                oid,
                count,
                at,
                length,
                fill,
            } => write!(
                f,
                "{name} {oid} count present+{count} at {at} length {length} fill {fill:#x}"
            ),
            Call::Rescind { oid, count } => write!(f, "{name} {oid} count present+{count}"),
            Call::Start | Call::Snapshot | Call::PageOut | Call::Advance | Call::Forecast => {
                write!(f, "{name}")
            }
        }
    }
}
