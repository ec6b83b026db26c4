//! The library under trial: the interface as the trials use it, and the proved
//! library behind it, by its C interface: the safe one lends neither a record of
//! any bytes with a margin after it nor ranges of an odd number of words.

use crate::call::{Answer, Call};
use lane::c::{
    lane_advance, lane_forecast, lane_format, lane_key, lane_page_out, lane_read, lane_rescind,
    lane_snapshot, lane_start, lane_write, Foretold, Present, Report,
};
use model::Kind;

/// `lane_store`, of which only the size is known here, and a margin after it
/// that no call may touch.
#[derive(Clone, Copy, PartialEq)]
#[repr(C, align(8))]
pub struct Record(pub [u8; RECORD + MARGIN]);

pub const RECORD: usize = lane::Store::RECORD;
const MARGIN: usize = 64;

impl Record {
    pub const ZEROS: Record = Record([0; RECORD + MARGIN]);

    pub fn margin(&self) -> &[u8] {
        &self.0[RECORD..]
    }
}

/// What is lent to a call.
pub struct Loan<'a> {
    pub record: &'a mut Record,
    pub card: &'a mut [u8],
    pub memory: &'a mut [u8],
}

pub trait Library {
    /// Has the record that it leaves the form of lane.h?
    const KEEPS_FORM: bool = true;

    /// Makes one call. The buffer is a read's, or holds the bytes of a write.
    fn make(&mut self, call: &Call, loan: Loan<'_>, buffer: &mut [u8]) -> Answer;
}

/// The proved library.
pub struct Linked;

impl Library for Linked {
    fn make(&mut self, call: &Call, loan: Loan<'_>, buffer: &mut [u8]) -> Answer {
        let s: *mut lane::c::Record = (&raw mut *loan.record).cast();
        let (card, n) = (loan.card.as_mut_ptr(), loan.card.len());
        let (memory, m) = (loan.memory.as_mut_ptr(), loan.memory.len());
        let (bytes, l) = (buffer.as_mut_ptr(), buffer.len());
        // SAFETY: each pointer is of a slice with that length, no two overlap,
        // and all live until the call is over.
        unsafe {
            match *call {
                Call::Format { area, ref ranges } => {
                    numbered(lane_format(card, n, area, ranges.as_ptr(), ranges.len()))
                }
                Call::Start => numbered(lane_start(s, card, n, memory, m)),
                Call::Key { oid } => counted(lane_key(s, card, n, memory, m, oid)),
                Call::Read { oid, count, .. } => {
                    numbered(lane_read(s, card, n, memory, m, oid, count, bytes, l))
                }
                Call::Write { oid, count, at, .. } => {
                    numbered(lane_write(s, card, n, memory, m, oid, count, at, bytes, l))
                }
                Call::Rescind { oid, count } => {
                    numbered(lane_rescind(s, card, n, memory, m, oid, count))
                }
                Call::Snapshot => numbered(lane_snapshot(s, card, n, memory, m)),
                Call::PageOut => reported(lane_page_out(s, card, n, memory, m)),
                Call::Advance => reported(lane_advance(s, card, n, memory, m)),
                Call::Forecast => foretold(lane_forecast(s, card, n, memory, m)),
            }
        }
    }
}

fn numbered(number: u32) -> Answer {
    match number {
        0 => Answer::Done,
        refusal => Answer::Refused(refusal),
    }
}

/// A refused key has count 0.
fn counted(present: Present) -> Answer {
    match (present.refusal, present.count) {
        (0, count) => Answer::Count(count),
        (refusal, 0) => Answer::Refused(refusal),
        _ => Answer::Strange,
    }
}

/// A refused forecast has no advances.
fn foretold(foretold: Foretold) -> Answer {
    match (foretold.refusal, foretold.advances) {
        (0, advances) => Answer::Foretold(advances as usize),
        (refusal, 0) => Answer::Refused(refusal),
        _ => Answer::Strange,
    }
}

/// A refused report has kind and block 0, and any other has refusal 0.
fn reported(report: Report) -> Answer {
    let kind = match (report.kind, report.refusal) {
        (0, refusal @ 1..) if report.block == 0 => return Answer::Refused(refusal),
        (1, 0) => Kind::P,
        (2, 0) => Kind::D,
        (3, 0) => Kind::T,
        (4, 0) => Kind::M,
        (5, 0) => Kind::H,
        (6, 0) => Kind::F,
        _ => return Answer::Strange,
    };
    Answer::Wrote(kind, report.block)
}
