//! What the trial asks of a layer: the same of the one in Rust and the one in C.

use crate::recorded::Shared;
use crate::shape::Shape;
use lane::{Report, BLOCK};

/// What the drive was asked for.
#[derive(Clone, Copy, Debug, PartialEq)]
pub enum Doing {
    Read,
    Write,
    Flush,
}

/// Why a call was not done.
#[derive(Clone, Debug, PartialEq)]
pub enum Fault {
    /// By document 01's number.
    Refused(u32),
    /// The drive failed.
    Drive(Doing),
    /// It failed at an earlier call.
    Stopped,
    /// The file's length is not the header's.
    Length,
    Other(String),
}

/// A lane that is open. Dropped, it is closed.
pub trait Lane {
    fn key(&mut self, oid: u32) -> Result<u32, Fault>;
    fn read(&mut self, oid: u32, count: u32, page: &mut [u8; BLOCK]) -> Result<(), Fault>;
    fn write(&mut self, oid: u32, count: u32, at: usize, bytes: &[u8]) -> Result<(), Fault>;
    fn rescind(&mut self, oid: u32, count: u32) -> Result<(), Fault>;
    fn snapshot(&mut self) -> Result<(), Fault>;
    fn finish(&mut self) -> Result<(), Fault>;
    fn commit(&mut self) -> Result<(), Fault>;
    /// None where nothing is due.
    fn advance(&mut self) -> Result<Option<Report>, Fault>;
    fn settle(&mut self) -> Result<(), Fault>;
    fn forecast(&mut self) -> Result<u32, Fault>;
}

/// A layer over a recorded drive.
pub trait Layer {
    /// What it is, and how it is used.
    fn name(&self) -> String;

    /// How many bytes a drive has on which a card of this shape stands.
    fn length(&self, shape: &Shape) -> usize {
        shape.length()
    }

    /// How many bytes may stand on the drive before a create of a card of this shape.
    fn lengths_before(&self, shape: &Shape) -> Vec<usize> {
        vec![self.length(shape)]
    }

    fn create(&self, drive: &Shared, shape: &Shape) -> Result<Box<dyn Lane>, Fault>;
    fn open(&self, drive: &Shared, shape: &Shape) -> Result<Box<dyn Lane>, Fault>;
}

/// What a call of a day was answered.
#[derive(Clone, Debug, PartialEq)]
pub enum Answer {
    Done,
    Count(u32),
    Page(Box<[u8; BLOCK]>),
    Report(Option<Report>),
    Fault(Fault),
}

impl Answer {
    /// In a word or two.
    pub fn text(&self) -> String {
        match self {
            Answer::Done => "done".to_string(),
            Answer::Count(count) => format!("count {count}"),
            Answer::Page(page) => format!("{:?} and so on", &page[..4]),
            Answer::Report(Some(report)) => report.to_string(),
            Answer::Report(None) => "nothing due".to_string(),
            Answer::Fault(Fault::Refused(number)) => format!("refused {number}"),
            Answer::Fault(Fault::Other(what)) => what.clone(),
            Answer::Fault(fault) => format!("{fault:?}"),
        }
    }
}
