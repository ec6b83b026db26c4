//! A drive between the layer in Rust and the recorded one: what reaches the record is what a layer
//! with this slip would have brought there, and what is read of it what that layer would take it for.

use crate::block::{block, HEADER};
use crate::ready::Recorded;
use crate::recorded::Shared;
use lane::file::Drive;
use lane::BLOCK;
use std::io;

/// What a block of a generation is.
#[derive(Clone, Copy, Debug, PartialEq)]
pub enum Kind {
    Page,
    Directory,
    Trailer,
    Home,
}

#[derive(Clone, Copy, Debug, PartialEq)]
pub enum Slip {
    NoFlushBefore,
    /// Only of a card that was opened, and not of one just created.
    NoFlushBeforeOpened,
    NoFlushAfter,
    NoFlushAtOpen,
    /// The header goes down, then the flush that belongs before it.
    HeaderFirst,
    /// The header goes down in one write with block 1.
    HeaderJoined,
    Lost(Kind),
    /// One block before its own place.
    Misplaced(Kind),
    /// The block behind goes down too, as it is.
    Rewritten,
    /// The flush after the header comes with the next operation.
    DoneEarly,
    /// Block 1 goes down once more, as it is, when the card is opened or dropped.
    OpenWrites,
    DropWrites,
    FailedFlushDone,
    FailedWriteDone,
    /// What fails is tried again.
    Retried,
    CreateNotFlushed,
    /// The flags of the first pot at home are taken for clear.
    FlagsNotAsked,
}

/// Where a flush belongs.
#[derive(Clone, Copy, PartialEq)]
enum Place {
    Create,
    Open,
    BeforeHeader,
    AfterHeader,
}

/// Flushes of a create.
const CREATE: usize = 3;

pub struct Between {
    under: Recorded,
    slip: Slip,
    created: bool,
    /// Flushes that the create still makes.
    creating: usize,
    /// Nothing was done since the card was opened, or created.
    fresh: bool,
    /// A header was written since the last flush.
    header: bool,
    /// A flush that is still to be made.
    owed: bool,
}

impl Between {
    pub fn new(record: Shared, slip: Slip) -> Between {
        Between {
            under: Recorded(record),
            slip,
            created: false,
            creating: 0,
            fresh: true,
            header: false,
            owed: false,
        }
    }

    fn place(&self) -> Place {
        match (self.creating, self.fresh, self.header) {
            (1.., _, _) => Place::Create,
            (0, true, _) => Place::Open,
            (0, false, true) => Place::AfterHeader,
            (0, false, false) => Place::BeforeHeader,
        }
    }

    /// A, by the header on the drive.
    fn area(&self) -> usize {
        let header = block(self.under.0.borrow().bytes(), HEADER);
        u32::from_le_bytes(header[12..16].try_into().expect("four bytes")) as usize
    }

    /// The kind of a block with these bytes, as far as it can be told.
    fn kind(&self, number: usize, bytes: &[u8]) -> Kind {
        let at = |at: usize| {
            let four = bytes[at..at + 4].try_into().expect("four bytes");
            u32::from_le_bytes(four) as usize
        };
        let area = self.area();
        if number > area {
            Kind::Home
        } else if bytes[..496].iter().all(|byte| *byte == 0) && at(496) > 0 {
            Kind::Trailer
        } else if at(0) > area && at(0) < 65_536 && (1..=area).contains(&at(4)) {
            Kind::Directory
        } else {
            Kind::Page
        }
    }

    fn put(&mut self, number: usize, bytes: &[u8]) -> io::Result<()> {
        self.under.write((number * BLOCK) as u64, bytes)
    }

    /// A write of one block after the other, each changed as the slip has it.
    fn by_block(&mut self, first: usize, bytes: &[u8]) -> io::Result<()> {
        for (i, bytes) in bytes.chunks(BLOCK).enumerate() {
            let number = first + i;
            let kind = self.kind(number, bytes);
            match self.slip {
                Slip::Lost(lost) if lost == kind => {}
                Slip::Misplaced(misplaced) if misplaced == kind && number > 1 => {
                    self.put(number - 1, bytes)?;
                }
                _ => self.put(number, bytes)?,
            }
        }
        Ok(())
    }

    fn with_next(&mut self, first: usize, bytes: &[u8]) -> io::Result<()> {
        let next = first + bytes.len() / BLOCK;
        let mut longer = bytes.to_vec();
        let card = self.under.0.borrow().bytes().to_vec();
        if next * BLOCK < card.len() {
            longer.extend(block(&card, next));
        }
        self.put(first, &longer)
    }

    /// A block goes down once more, as it is.
    fn again(&mut self, number: usize) -> io::Result<()> {
        let bytes = block(self.under.0.borrow().bytes(), number);
        self.put(number, &bytes)
    }

    fn header_written(&mut self, bytes: &[u8]) -> io::Result<()> {
        self.header = true;
        match self.slip {
            Slip::HeaderJoined => self.with_next(HEADER, bytes),
            _ => self.put(HEADER, bytes),
        }?;
        self.pay()
    }

    /// Makes the flush that is owed.
    fn pay(&mut self) -> io::Result<()> {
        match std::mem::take(&mut self.owed) {
            true => self.under.flush(),
            false => Ok(()),
        }
    }

    fn slipped_write(&mut self, first: usize, bytes: &[u8]) -> io::Result<()> {
        match (self.slip, first) {
            (_, HEADER) => self.header_written(bytes),
            (Slip::Lost(_) | Slip::Misplaced(_), _) => self.by_block(first, bytes),
            (Slip::Rewritten, _) => self.with_next(first, bytes),
            _ => self.put(first, bytes),
        }
    }
}

impl Drive for Between {
    fn length(&self) -> u64 {
        self.under.length()
    }

    fn read(&mut self, at: u64, buffer: &mut [u8]) -> io::Result<()> {
        self.under.read(at, buffer)?;
        if self.slip == Slip::FlagsNotAsked {
            let pot = &mut buffer[(1 + self.area()) * BLOCK..][..BLOCK];
            let flags = pot.iter_mut().skip(4).step_by(5);
            flags.for_each(|flags| *flags &= !1);
        }
        Ok(())
    }

    fn write(&mut self, at: u64, bytes: &[u8]) -> io::Result<()> {
        if self.fresh && self.creating == 0 {
            self.created = true;
            self.creating = CREATE;
        }
        if self.creating > 0 {
            return self.under.write(at, bytes);
        }
        if self.slip == Slip::DoneEarly {
            self.pay()?;
        }
        let outcome = self.slipped_write(at as usize / BLOCK, bytes);
        match (self.slip, outcome) {
            (Slip::FailedWriteDone, Err(_)) => Ok(()),
            (Slip::Retried, Err(_)) => self.under.write(at, bytes),
            (_, outcome) => outcome,
        }
    }

    fn flush(&mut self) -> io::Result<()> {
        let place = self.place();
        if place == Place::Create {
            self.creating -= 1;
        } else {
            self.fresh = false;
        }
        self.header = false;
        match (self.slip, place) {
            (Slip::NoFlushBefore, Place::BeforeHeader)
            | (Slip::NoFlushAfter, Place::AfterHeader)
            | (Slip::NoFlushAtOpen, Place::Open)
            | (Slip::CreateNotFlushed, Place::Create) => Ok(()),
            (Slip::NoFlushBeforeOpened, Place::BeforeHeader) if !self.created => Ok(()),
            (Slip::HeaderFirst, Place::BeforeHeader) | (Slip::DoneEarly, Place::AfterHeader) => {
                self.owed = true;
                Ok(())
            }
            (Slip::OpenWrites, Place::Open) => self.again(1).and_then(|()| self.under.flush()),
            (Slip::FailedFlushDone, _) => self.under.flush().or(Ok(())),
            (Slip::Retried, _) => self.under.flush().or_else(|_| self.under.flush()),
            _ => self.under.flush(),
        }
    }
}

impl Drop for Between {
    fn drop(&mut self) {
        if self.slip == Slip::DropWrites {
            self.again(1).expect("it does not fail here");
        }
    }
}
