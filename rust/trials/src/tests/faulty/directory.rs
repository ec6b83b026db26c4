//! Faults in the order of a directory.

use super::Faulty;
use crate::call::{Answer, Call};
use crate::directories::in_order_of_change;
use crate::reference::{advanced, Reference, Reply};
use model::blocks::{directory, put, Block, ENTRIES};
use model::{Kind, Lent, Store};

impl Faulty {
    /// A key or read that does not find the first or the last entry of the
    /// current directory.
    pub(super) fn miss_entry(&self, last: bool, call: &Call, lent: Lent) -> Reply {
        let mut model = self.model.clone();
        if let Some(Store { current, .. }) = &mut model.store {
            let frames = current.frames();
            let missed = if last { frames.last() } else { frames.first() };
            let is_missed = |frame: usize| Some(&frame) == missed;
            current.waiting.retain(|waiting| !is_missed(waiting.frame));
            // Block 0 is no frame; the other places stay.
            let written = current.written.iter_mut();
            written
                .filter(|frame| is_missed(**frame))
                .for_each(|frame| *frame = 0);
        }
        model.make(call, lent, &[])
    }

    /// An advance that writes the directory in order of first change.
    pub(super) fn advance_unsorted(&mut self, lent: Lent) -> Reply {
        let reply = advanced(self.model.advance(lent));
        if let (Answer::Wrote(Kind::D, block), Some(bytes)) = (reply.answer, self.unsorted()) {
            put(&mut self.model.card, block, &bytes);
        }
        reply
    }

    /// The directory block that was written last.
    fn unsorted(&self) -> Option<Block> {
        let store = self.model.store.as_ref()?;
        let pending = store.pending.as_ref()?;
        let changes = &pending.changes;
        let block = |frame| {
            let place = changes.last_place(frame)?;
            Some((frame, store.geometry.ring(changes.first, place)))
        };
        let frames = in_order_of_change(changes).into_iter();
        let entries: Vec<(usize, usize)> = frames.filter_map(block).collect();
        let part = entries
            .chunks(ENTRIES)
            .nth(pending.directory_down.checked_sub(1)?)?;
        Some(directory(part))
    }
}
