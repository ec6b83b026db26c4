//! Faults at the limits of document 01.

use super::Faulty;
use crate::call::{Answer, Call};
use crate::limits::{told, FULL, LIMITS};
use crate::reference::{Reference, Reply};
use model::geometry::BLOCK;
use model::{Lent, Store};

impl Faulty {
    /// Done becomes 5 and 5 done, where this limit decides.
    pub(super) fn pass_limit(&mut self, row: usize, call: &Call, lent: Lent) -> Reply {
        let told = told(call, lent, &self.model.card);
        let mut reply = self.model.make(call, lent, &[]);
        if told.is_some_and(|told| LIMITS[row].decides(&told)) {
            reply.answer = match reply.answer {
                Answer::Done => Answer::Refused(5),
                Answer::Refused(5) => Answer::Done,
                other => other,
            };
        }
        reply
    }

    pub(super) fn lose_entry(&mut self, lent: Lent) -> Reply {
        let reply = self.model.make(&Call::Start, lent, &[]);
        let store = self.model.store.as_mut();
        if let Some(committed) = store.and_then(|store| store.committed.as_mut()) {
            committed.entries.truncate(FULL - 1);
        }
        reply
    }

    pub(super) fn take_entry(&mut self, call: &Call, lent: Lent, bytes: &[u8]) -> Reply {
        let mut reply = self.model.make(call, lent, bytes);
        let full = self.model.store.as_ref().is_some_and(is_full);
        if full && reply.answer == Answer::Refused(12) {
            self.put_on(call, [0; BLOCK], bytes);
            reply.answer = Answer::Done;
        }
        reply
    }
}

pub(super) fn is_full(store: &Store) -> bool {
    store.current.e() == FULL
}
