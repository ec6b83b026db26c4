//! A drive in memory that records every write and every flush, and fails when it is told to.

use crate::layer::Doing;
use lane::BLOCK;
use std::cell::RefCell;
use std::rc::Rc;

#[derive(Clone, Debug, PartialEq)]
pub enum Event {
    /// A write of whole blocks; not done, any part of it may be down.
    Write {
        first: usize,
        bytes: Vec<u8>,
        done: bool,
    },
    /// A flush; not done, it has made nothing safe.
    Flush { done: bool },
    /// A file was made so long.
    Length(usize),
}

/// The operation that fails: the n-th read, write or flush, counted from 0.
#[derive(Clone, Copy, Debug)]
pub struct Plan {
    pub doing: Doing,
    pub nth: usize,
    pub how: How,
}

#[derive(Clone, Copy, Debug, PartialEq)]
pub enum How {
    Error,
    /// Only so many bytes are written.
    Short(usize),
    /// It is not even begun.
    Refused,
    /// The system fails to tell how it has ended.
    Untold,
}

/// How an operation ends.
#[derive(Clone, Copy, Debug, PartialEq)]
pub enum Outcome {
    Done,
    Failed(How),
}

#[derive(Default)]
pub struct Record {
    /// As a read sees them, flushed or not.
    bytes: Vec<u8>,
    events: Vec<Event>,
    /// Reads, writes and flushes so far.
    asked: [usize; 3],
    plan: Option<Plan>,
    /// Has the operation that is to fail been met, and was the layer told?
    failed: bool,
    told: bool,
    /// Where the rest of a write that was told to be short begins and ends: it may be asked for
    /// once, to learn why.
    rest: Option<(usize, usize)>,
    /// What was asked of the drive that no layer may ask.
    wrongs: Vec<String>,
}

/// The record outlives the lane that has the drive.
pub type Shared = Rc<RefCell<Record>>;

pub fn shared(bytes: Vec<u8>) -> Shared {
    let record = Record {
        bytes,
        ..Record::default()
    };
    Rc::new(RefCell::new(record))
}

impl Record {
    pub fn bytes(&self) -> &[u8] {
        &self.bytes
    }

    pub fn events(&self) -> &[Event] {
        &self.events
    }

    /// How often the drive was asked for this.
    pub fn asked(&self, doing: Doing) -> usize {
        self.asked[doing as usize]
    }

    pub fn fail(&mut self, plan: Plan) {
        self.plan = Some(plan);
    }

    /// Has the operation that was to fail been met?
    pub fn failed(&self) -> bool {
        self.failed
    }

    pub fn wrong(&mut self, what: String) {
        self.wrongs.push(what);
    }

    pub fn take_wrong(&mut self) -> Option<String> {
        let first = self.wrongs.first().cloned();
        self.wrongs.clear();
        first
    }

    /// Counts an operation, and says how it ends. Once a failure was told nothing may be written or
    /// flushed.
    fn ask(&mut self, doing: Doing, excused: bool) -> Outcome {
        let nth = self.asked[doing as usize];
        self.asked[doing as usize] += 1;
        if self.told && doing != Doing::Read && !excused {
            self.wrong(format!("{doing:?} after the drive has failed"));
        }
        match self.plan {
            Some(plan) if plan.doing == doing && plan.nth == nth => {
                self.failed = true;
                Outcome::Failed(plan.how)
            }
            _ => Outcome::Done,
        }
    }

    /// A write that is to be short has at least one byte less.
    fn shortened(outcome: Outcome, length: usize) -> Outcome {
        match outcome {
            Outcome::Failed(How::Short(down)) => Outcome::Failed(How::Short(down.min(length - 1))),
            outcome => outcome,
        }
    }

    /// Is the next write one that is not even begun?
    pub fn refuses_next(&self) -> bool {
        self.plan.is_some_and(|plan| {
            let next = plan.doing == Doing::Write && plan.nth == self.asked(Doing::Write);
            next && plan.how == How::Refused
        })
    }

    /// The layer is told how an operation has ended.
    pub fn tell(&mut self, outcome: Outcome) -> Outcome {
        self.told |= outcome != Outcome::Done;
        outcome
    }

    pub fn read(&mut self, at: usize, buffer: &mut [u8]) -> Outcome {
        let outcome = self.ask(Doing::Read, false);
        match self.bytes.get(at..at + buffer.len()) {
            Some(bytes) => buffer.copy_from_slice(bytes),
            None => self.wrong(format!("a read of {} bytes at {at}", buffer.len())),
        }
        self.tell(outcome)
    }

    pub fn write(&mut self, at: usize, bytes: &[u8]) -> Outcome {
        let outcome = self.begin_write(at, bytes);
        if let Outcome::Failed(How::Short(down)) = outcome {
            self.rest = Some((at + down, at + bytes.len()));
        }
        self.tell(outcome)
    }

    /// A write of whole blocks that is under way from now on; how it ends is told later. A drive
    /// does not grow.
    pub fn begin_write(&mut self, at: usize, bytes: &[u8]) -> Outcome {
        let rest = self.rest.take() == Some((at, at + bytes.len()));
        let outcome = self.ask(Doing::Write, rest);
        let whole = at.is_multiple_of(BLOCK) && bytes.len().is_multiple_of(BLOCK);
        if !whole || bytes.is_empty() || at + bytes.len() > self.bytes.len() {
            self.wrong(format!("a write of {} bytes at {at}", bytes.len()));
            return outcome;
        }
        let outcome = Record::shortened(outcome, bytes.len());
        let down = match outcome {
            Outcome::Done => bytes.len(),
            Outcome::Failed(How::Short(down)) => down,
            Outcome::Failed(_) => 0,
        };
        self.bytes[at..at + down].copy_from_slice(&bytes[..down]);
        self.events.push(Event::Write {
            first: at / BLOCK,
            bytes: bytes.to_vec(),
            done: outcome == Outcome::Done && !rest,
        });
        outcome
    }

    pub fn flush(&mut self) -> Outcome {
        let outcome = self.ask(Doing::Flush, false);
        let done = outcome == Outcome::Done;
        self.events.push(Event::Flush { done });
        self.tell(outcome)
    }

    /// A file takes this length.
    pub fn make_length(&mut self, length: usize) {
        if length != self.bytes.len() {
            self.bytes.resize(length, 0);
            self.events.push(Event::Length(length));
        }
    }
}
