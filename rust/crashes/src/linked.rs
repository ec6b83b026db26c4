//! The layer in C over a recorded drive: through the system's calls, or as a drive of the program's
//! own.

use crate::layer::{Fault, Lane, Layer};
use crate::recorded::Shared;
use crate::shape::{Room, Shape};
use crate::shim::{Calls, Linked, Options};
use crate::system::{Named, Setting};
use lane::BLOCK;

/// Blocks that a device has behind the card.
const BEHIND: usize = 3;

/// How the drive is reached.
#[derive(Clone, Copy, Debug)]
pub enum Door {
    /// By its path.
    Path(Setting),
    /// As a drive of the program's own.
    Own,
}

/// A build of the layer, and how it is used.
#[derive(Clone, Copy)]
pub struct InC {
    pub calls: &'static Calls,
    pub door: Door,
    /// The card is read whole, not mapped.
    pub unmapped: bool,
}

impl InC {
    fn options(&self, shape: &Shape, replace: bool) -> Options {
        Options {
            frames: shape.frames,
            room: match shape.room {
                Room::Make => 0,
                Room::Refuse => 1,
                Room::Commit => 2,
            },
            promise: 0,
            unmapped: i32::from(self.unmapped),
            replace: i32::from(replace),
        }
    }

    /// Is something there that a create must be asked to replace?
    fn in_use(&self, drive: &Shared) -> bool {
        let drive = drive.borrow();
        match self.door {
            Door::Path(setting) if setting.device => drive.bytes().iter().any(|byte| *byte != 0),
            _ => !drive.bytes().is_empty(),
        }
    }
}

impl Layer for InC {
    fn name(&self) -> String {
        format!("C, {:?}, unmapped {}", self.door, self.unmapped)
    }

    /// A device is longer than the card.
    fn length(&self, shape: &Shape) -> usize {
        match self.door {
            Door::Path(setting) if setting.device => shape.length() + BEHIND * BLOCK,
            _ => shape.length(),
        }
    }

    /// A file is not there before, or has any length.
    fn lengths_before(&self, shape: &Shape) -> Vec<usize> {
        let (length, more) = (self.length(shape), BEHIND * BLOCK);
        match self.door {
            Door::Path(setting) if !setting.device => vec![0, length - more, length, length + more],
            _ => vec![length],
        }
    }

    fn create(&self, drive: &Shared, shape: &Shape) -> Result<Box<dyn Lane>, Fault> {
        let (calls, area, ranges) = (self.calls, shape.area, &shape.ranges);
        let there = !drive.borrow().bytes().is_empty();
        let options = self.options(shape, self.in_use(drive));
        let lane = match self.door {
            Door::Path(setting) => {
                let named = Named::new(setting, drive, there);
                Linked::create(calls, named, area, ranges, &options)
            }
            Door::Own => Linked::create_on(calls, drive, area, ranges, &options),
        };
        Ok(Box::new(lane?))
    }

    fn open(&self, drive: &Shared, shape: &Shape) -> Result<Box<dyn Lane>, Fault> {
        let options = self.options(shape, false);
        let lane = match self.door {
            Door::Path(setting) => {
                let named = Named::new(setting, drive, true);
                Linked::open(self.calls, named, &options)
            }
            Door::Own => Linked::open_on(self.calls, drive, &options),
        };
        Ok(Box::new(lane?))
    }
}
