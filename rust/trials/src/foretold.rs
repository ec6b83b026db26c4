//! What forecasts foretell, held to the calls that follow.

use crate::call::{Answer, Call};
use crate::library::Library;
use crate::reference::Reference;
use crate::stock::difference;
use crate::trial::Trial;
use model::geometry::BLOCK;
use model::{Kind, Lent, Model, Store};
use std::iter::from_fn;

/// Of cards of up to so many blocks the advances are made at once, by a copy, of
/// one forecast in so many calls.
const PLAYED: usize = 128;
const PLAYED_AFTER: usize = 32;

/// A forecast, and what the calls since have left of it.
#[derive(Clone, Copy)]
pub struct Foretold {
    /// What it was at first.
    pub from: usize,
    /// The advances that are to follow.
    pub left: usize,
}

impl Foretold {
    /// A forecast is what an earlier one has left, if there was one.
    pub fn told(earlier: Option<Foretold>, advances: usize) -> Result<Foretold, String> {
        match earlier {
            None => Ok(Foretold {
                from: advances,
                left: advances,
            }),
            Some(earlier) if earlier.left == advances => Ok(earlier),
            Some(Foretold { left, .. }) => Err(format!("foretells {advances}, with {left} left")),
        }
    }

    /// What a call leaves of it. A start, and a format, a snapshot or a page-out
    /// that is done, are not foretold.
    pub fn after(self, call: &Call, answer: &Answer) -> Result<Option<Foretold>, String> {
        match (call, answer) {
            (Call::Advance, Answer::Wrote(kind, _)) => self.advanced(*kind).map(Some),
            (Call::Advance, Answer::Refused(20)) if self.left > 0 => {
                Err(format!("advance is refused with {} foretold", self.left))
            }
            (Call::Start, _) => Ok(None),
            (Call::Format { .. } | Call::Snapshot | Call::PageOut, answer) if answer.is_done() => {
                Ok(None)
            }
            _ => Ok(Some(self)),
        }
    }

    /// The last advance but one is H, the last is F, and then there is only M.
    fn advanced(self, kind: Kind) -> Result<Foretold, String> {
        let Foretold { from, left } = self;
        let right = match left {
            0 => kind == Kind::M,
            1 => kind == Kind::F,
            2 => kind == Kind::H,
            _ => kind != Kind::H,
        };
        if !right {
            return Err(format!("advance makes {kind:?} with {left} foretold"));
        }
        let left = left.saturating_sub(1);
        Ok(Foretold { from, left })
    }

    /// Is a snapshot pending? H and the flush after it are to follow then.
    pub fn is_pending(self) -> bool {
        self.left > 1
    }
}

impl<L: Library, R: Reference> Trial<'_, L, R> {
    /// A call is as the forecast before it has foretold, and the forecast after
    /// it is what it has left.
    pub fn hold_forecast(&mut self, call: &Call, answer: &Answer) -> Result<(), String> {
        if !self.reference.foretells() {
            return Ok(());
        }
        if let Some(before) = self.foretold {
            self.foretold = before.after(call, answer)?;
            let forecasts = &mut self.tally.forecasts;
            forecasts.count_followed(before, self.foretold, call, answer);
        }
        let asked = self.ask_forecast();
        asked.map_err(|what| format!("forecast after {}: {what}", call.name()))
    }

    /// Asks library and reference, lent what the record says. That memory and
    /// card stay is compared after it.
    fn ask_forecast(&mut self) -> Result<(), String> {
        let Some(lent) = self.reference.model().store.as_ref().map(lent_to) else {
            return Ok(());
        };
        let record = self.stock.record;
        let [answer, right] = self.forecast(lent);
        if answer != right {
            return Err(format!("answers {answer}, the model {right}"));
        }
        if let Some(at) = difference(&self.stock.record.0, &record.0) {
            return Err(format!("record byte {at} has changed"));
        }
        let Answer::Foretold(advances) = answer else {
            return Err(format!("answers {answer}"));
        };
        let foretold = Foretold::told(self.foretold, advances)?;
        self.foretold = Some(foretold);
        if let Some(store) = &self.reference.model().store {
            self.tally.forecasts.count(advances, store);
        }
        let small = lent.card <= PLAYED * BLOCK;
        if small && foretold.is_pending() && self.made.is_multiple_of(PLAYED_AFTER) {
            return self.play(advances, lent);
        }
        Ok(())
    }

    /// So many advances are made until the snapshot is safe, by a copy.
    fn play(&mut self, advances: usize, lent: Lent) -> Result<(), String> {
        let made = played(self.reference.model().clone(), lent);
        if made != advances {
            return Err(format!("foretells {advances}, and {made} are made"));
        }
        self.tally.forecasts.played += 1;
        Ok(())
    }
}

/// What the record of a store asks to be lent.
fn lent_to(store: &Store) -> Lent {
    Lent {
        card: store.geometry.blocks * BLOCK,
        memory: store.memory * BLOCK,
    }
}

/// The advances up to the flush after H; with no H to come, up to a flush that
/// is the next.
pub fn played(mut model: Model, lent: Lent) -> usize {
    let kinds = from_fn(|| model.advance(lent).ok()).map(|(kind, _)| kind);
    let kinds: Vec<Kind> = kinds.collect();
    match kinds.windows(2).position(|two| two == [Kind::H, Kind::F]) {
        Some(before) => before + 2,
        None => usize::from(kinds.first() == Some(&Kind::F)),
    }
}
