//! What a lane foretells, held to what its calls make.

use crate::day::Call;
use crate::layer::Answer;
use crate::recorded::Event;
use crate::shape::Room;
use lane::{Report, BLOCK};

/// A call, and the forecasts before it and after it.
pub struct Foretold<'a> {
    pub call: &'a Call,
    pub answer: &'a Answer,
    pub room: Room,
    pub before: u32,
    pub after: u32,
    /// Blocks and flushes that it has brought to the drive.
    pub made: u32,
}

/// The last is the flush after the header, and then there is only the way home.
fn is_foretold(left: u32, report: Report) -> bool {
    match left {
        0 => matches!(report, Report::M(_)),
        1 => matches!(report, Report::F(_)),
        2 => matches!(report, Report::H(_)),
        _ => !matches!(report, Report::H(_)),
    }
}

/// Directory, trailer, flush, header, flush: where every page was paged out.
const LEAST: u32 = 5;

impl Foretold<'_> {
    /// What was foretold has come.
    pub fn holds(&self) -> Result<(), String> {
        if self.is_right() {
            return Ok(());
        }
        let (call, answer, made) = (self.call, self.answer.text(), self.made);
        let (before, after) = (self.before, self.after);
        Err(format!(
            "with {before} foretold {call} is answered {answer}, makes {made} and leaves {after}"
        ))
    }

    /// A change takes from what is foretold only if it makes room.
    fn is_right(&self) -> bool {
        let (before, after) = (self.before, self.after);
        match (self.call, self.answer) {
            (Call::Advance, Answer::Report(Some(report))) => {
                is_foretold(before, *report) && after == before.saturating_sub(1)
            }
            (Call::ToHeader, Answer::Report(Some(_))) => {
                before > 1 && after == 1 && self.makes(before - 1)
            }
            (Call::Advance | Call::ToHeader, Answer::Report(None)) => before < 2 && after == 0,
            (Call::Finish, Answer::Done) => after == 0 && self.makes(before),
            (Call::Commit | Call::Settle | Call::Reopen, Answer::Done) => after == 0,
            (Call::Snapshot, Answer::Done) => after >= before + LEAST,
            (Call::Write { .. } | Call::Rescind(_), _) if self.room != Room::Refuse => {
                after <= before
            }
            _ => after == before,
        }
    }

    /// What was paged out to make room goes to the drive with the rest.
    fn makes(&self, foretold: u32) -> bool {
        match self.room {
            Room::Refuse => self.made == foretold,
            Room::Make | Room::Commit => self.made >= foretold,
        }
    }
}

/// Blocks and flushes.
pub fn made(events: &[Event]) -> u32 {
    let made = events.iter().map(|event| match event {
        Event::Write { bytes, .. } => (bytes.len() / BLOCK) as u32,
        Event::Flush { .. } => 1,
        Event::Length(_) => 0,
    });
    made.sum()
}
