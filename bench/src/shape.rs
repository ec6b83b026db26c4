//! Lane stores with a given number of entries in their directories.

use crate::card::FRAMES;
use crate::controller::Controller;
use crate::store::{Page, PageStore};
use crate::subject::{spread, Subject};

/// Entries in the committed, pending and current directories.
#[derive(Clone, Copy)]
pub struct Shape {
    pub committed: usize,
    pub pending: usize,
    pub current: usize,
}

pub const FEW: Shape = Shape {
    committed: 2,
    pending: 2,
    current: 4,
};

/// Sizes 256 + 127 + 129 fill the area.
pub const FULL: Shape = Shape {
    committed: 251,
    pending: 124,
    current: 126,
};

/// Sizes 3 + 256 + 253 fill the area, with most entries in the directories kept in order of first
/// change.
pub const FULL_CHANGES: Shape = Shape {
    committed: 1,
    pending: 251,
    current: 248,
};

impl Shape {
    pub fn name(&self) -> String {
        format!("{}/{}/{}", self.committed, self.pending, self.current)
    }

    pub fn total(&self) -> usize {
        self.committed + self.pending + self.current
    }

    /// The i-th page, in `spread`'s order, of those that wait in the current generation, and round
    /// again.
    pub fn waiting(&self, i: usize) -> usize {
        let waiting = self.current.min(FRAMES);
        self.total() - waiting + i % waiting
    }

    /// Calls that are timed together: fewer where each takes long.
    pub fn batch(&self) -> usize {
        if self.total() < 100 {
            128
        } else {
            4
        }
    }

    /// Fills the directories of a lane store.
    pub fn fill<'a>(&self, own: &'a mut Subject<Controller>) -> &'a mut Controller {
        let pages = same_bytes(own, 0, self.total());
        let (committed, changed) = pages.split_at(self.committed);
        let (pending, current) = changed.split_at(self.pending);
        let lane = &mut *own.store;
        lane.abort();
        lane.change(committed);
        lane.commit();
        lane.change(pending);
        lane.calls.snapshot().expect("snapshot");
        lane.change(current);
        lane
    }
}

/// The pages from..to of `spread`'s order with the bytes that they have: writing them changes
/// frames and no page.
pub fn same_bytes(own: &Subject<Controller>, from: usize, to: usize) -> Vec<(u32, Page)> {
    (from..to)
        .map(|i| (spread(i), own.page(spread(i))))
        .collect()
}
