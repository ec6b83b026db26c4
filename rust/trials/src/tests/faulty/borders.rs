//! Faults at the borders of ranges.

use super::Faulty;
use crate::borders::BORDERS;
use crate::call::{Answer, Call};
use crate::reference::{Reference, Reply};
use model::Lent;

impl Faulty {
    /// 9 becomes 21 and 21 becomes 9, where the call names an OID at this border;
    /// one that a range has is refused 21.
    pub(super) fn pass_border(
        &mut self,
        row: usize,
        call: &Call,
        lent: Lent,
        bytes: &[u8],
    ) -> Reply {
        let before = self.model.clone();
        let mut reply = self.model.make(call, lent, bytes);
        let store = before.store.as_ref();
        if store.is_some_and(|store| BORDERS[row].is_named(call, store)) {
            reply.answer = match reply.answer {
                Answer::Refused(number @ 1..=3) => Answer::Refused(number),
                Answer::Refused(21) => Answer::Refused(9),
                _ => Answer::Refused(21),
            };
            reply.page = None;
            self.model = before;
        }
        reply
    }
}
