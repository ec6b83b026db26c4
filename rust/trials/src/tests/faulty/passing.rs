//! Faults in what M passes over, and in what should not wait for it.

use super::{Fault, Faulty};
use crate::call::Answer;
use crate::empties::{flag, marked};
use crate::reference::{advanced, Reply};
use model::blocks::get;
use model::geometry::{Place, RUN};
use model::{Kind, Lent, Phase, Store};

impl Faulty {
    /// An advance whose M passes over other frames than it should.
    pub(super) fn advance_past_others(&mut self, lent: Lent) -> Reply {
        let over = self.passed_over();
        advanced(self.model.advance_past(lent, &over))
    }

    fn passed_over(&self) -> Vec<usize> {
        let Some(store) = &self.model.store else {
            return Vec::new();
        };
        let committed = store.committed.iter();
        let frames = committed.flat_map(|committed| committed.entries.iter().map(|entry| entry.0));
        match self.fault {
            Fault::MigrationEndsEarly => {
                let over = self.model.passed_over();
                frames.skip_while(|frame| !over.contains(frame)).collect()
            }
            _ => frames.filter(|frame| self.passes(store, *frame)).collect(),
        }
    }

    /// Does M pass over this frame, by the fault?
    fn passes(&self, store: &Store, frame: usize) -> bool {
        let card = &self.model.card;
        let kept = |pot: usize| get(card, store.kept_block(pot));
        let Some(place) = store.geometry.page_at(frame) else {
            return self.fault == Fault::PotPassedOver && kept(frame)[4] & 1 == 1;
        };
        match self.fault {
            Fault::EmptyByNewest => flag(&store.newest(card, place.pot), &place),
            Fault::EmptyByPending => flag(&marked(store, card, place.pot), &place),
            Fault::EmptyByNeighbour => flag(&kept(place.pot), &neighbour(place)),
            Fault::EmptyByFirstPot => flag(&kept(first_pot(store, &place)), &place),
            Fault::EmptyByAnyBit => kept(place.pot)[place.at + 4] != 0,
            Fault::NothingPassedOver => false,
            _ => flag(&kept(place.pot), &place),
        }
    }

    /// Are entries left, and all of them passed over?
    fn only_passed_are_left(&self) -> bool {
        let store = self.model.store.as_ref();
        let committed = store.and_then(|store| store.committed.as_ref());
        let over = self.model.passed_over();
        committed.is_some_and(|c| c.migrated < c.entries.len() && c.to_migrate(&over).is_none())
    }

    /// In place of the flush before H, 20 while entries are left.
    pub(super) fn advance_and_wait(&mut self, lent: Lent) -> Reply {
        let waits = self.phase() == Some(Phase::Writing)
            && self.model.due() == Some(Kind::F)
            && self.only_passed_are_left();
        if waits && self.model.clone().advance(lent).is_ok() {
            return advanced(Err(20));
        }
        advanced(self.model.advance(lent))
    }

    /// In place of 20, an M for each entry that is left, which writes nothing.
    pub(super) fn advance_and_report(&mut self, lent: Lent) -> Reply {
        let left = self.only_passed_are_left();
        let mut reply = advanced(self.model.advance(lent));
        let store = self.model.store.as_mut();
        let committed = store.and_then(|store| store.committed.as_mut());
        if let (Answer::Refused(20), true, Some(committed)) = (reply.answer, left, committed) {
            let (frame, _) = committed.entries[committed.migrated];
            committed.migrated += 1;
            reply.answer = Answer::Wrote(Kind::M, frame);
        }
        reply
    }
}

/// The next page in the pot, behind the last the first.
fn neighbour(place: Place) -> Place {
    let at = (place.at + 5) % (5 * RUN);
    Place { at, ..place }
}

/// The first pot of a page's range.
fn first_pot(store: &Store, place: &Place) -> usize {
    let mut start = 1 + store.geometry.area;
    for range in &store.geometry.ranges {
        if place.page < start + range.blocks() {
            break;
        }
        start += range.blocks();
    }
    start
}
