//! Faults in what is foretold.

use super::{Fault, Faulty};
use crate::call::{Answer, Call};
use crate::empties::flag;
use crate::reference::{Reference, Reply};
use model::blocks::{get, Block};
use model::generation::{directory_blocks, Pending};
use model::{Lent, Phase, Store};

/// How a forecast is wrong.
#[derive(Clone, Copy, Debug, PartialEq)]
pub enum Miscount {
    /// The trailer is left out once the directory is down.
    NoTrailer,
    NoHeader,
    NoFlushAfterHeader,
    /// The flush before the header is counted although it is made.
    FlushCountedAgain,
    /// All of the directory is counted until it is down.
    DirectoryWhole,
    /// The migration is left out.
    NoMigration,
    /// Pages that M passes over are counted.
    PassedOverCounted,
    /// Pages that are empty by the newest view of their pot are left out.
    EmptyByNewest,
    /// Pages that are empty by their pot at home are left out.
    EmptyAtHome,
    /// With none pending the M writes left are told.
    MigrationAlone,
    /// The flush after a header write or a start is left out.
    NoFlushOwed,
    /// Current frames that wait are counted too.
    CurrentCounted,
    /// It stays as it was at the snapshot.
    Stale,
}

impl Faulty {
    /// A forecast with the fault in it.
    pub(super) fn miscount(&mut self, miscount: Miscount, lent: Lent) -> Reply {
        let mut reply = self.model.make(&Call::Forecast, lent, &[]);
        if let (Answer::Foretold(right), Some(store)) = (reply.answer, &self.model.store) {
            let wrong = match &store.pending {
                Some(pending) => self.miscounted(miscount, right, store, pending),
                None => self.miscounted_alone(miscount, right, store),
            };
            reply.answer = Answer::Foretold(wrong);
        }
        reply
    }

    /// A snapshot, whose forecast is noted.
    pub(super) fn snapshot_foretold(&mut self, lent: Lent) -> Reply {
        let reply = self.model.make(&Call::Snapshot, lent, &[]);
        if reply.answer == Answer::Done {
            self.foretold = self.model.forecast(lent).unwrap_or(0);
        }
        reply
    }

    fn miscounted_alone(&self, miscount: Miscount, right: usize, store: &Store) -> usize {
        match miscount {
            Miscount::NoFlushAfterHeader | Miscount::NoFlushOwed => 0,
            Miscount::MigrationAlone => right + left(store, &self.model.passed_over()),
            _ => right,
        }
    }

    fn miscounted(
        &self,
        miscount: Miscount,
        right: usize,
        store: &Store,
        pending: &Pending,
    ) -> usize {
        let down = pending.directory_down;
        let to_come = directory_blocks(pending.changes.e()) - down;
        let home = left(store, &self.model.passed_over());
        match miscount {
            Miscount::NoTrailer => right - usize::from(to_come == 0 && !pending.trailer_down),
            Miscount::NoHeader | Miscount::NoFlushAfterHeader => right - 1,
            Miscount::FlushCountedAgain => right + usize::from(store.phase == Phase::Flushed),
            Miscount::DirectoryWhole if to_come > 0 => right + down,
            Miscount::NoMigration => right - home,
            Miscount::PassedOverCounted => right - home + left(store, &[]),
            Miscount::EmptyByNewest => {
                let newest = |pot| store.newest(&self.model.card, pot);
                right - home + left(store, &empty_by(store, newest))
            }
            Miscount::EmptyAtHome => {
                let at_home = |pot| get(&self.model.card, pot);
                right - home + left(store, &empty_by(store, at_home))
            }
            Miscount::NoFlushOwed => right - usize::from(store.phase == Phase::Owed),
            Miscount::CurrentCounted => right + store.current.waiting.len(),
            Miscount::Stale => self.foretold,
            _ => right,
        }
    }

    /// Does only its forecast have a fault?
    pub(super) fn steps_rightly(&self) -> bool {
        matches!(self.fault, Fault::None | Fault::Forecast(_))
    }
}

/// M writes left, with these frames passed over.
fn left(store: &Store, over: &[usize]) -> usize {
    let committed = store.committed.as_ref();
    committed.map_or(0, |committed| committed.left(over))
}

/// The committed pages that are empty by such a view of their pots.
fn empty_by(store: &Store, view: impl Fn(usize) -> Block) -> Vec<usize> {
    let entries = store.committed.iter().flat_map(|c| &c.entries);
    let places = entries.filter_map(|(frame, _)| store.geometry.page_at(*frame));
    let empty = places.filter(|place| flag(&view(place.pot), place));
    empty.map(|place| place.page).collect()
}
