//! A store that is measured, and what its pages must read.

use crate::card::{FIRST, MANY, WRITTEN};
use crate::store::{bring_home, commit, Page, PageStore};
use lane::BLOCK;

/// Coprime to the number of pages, so that pages this far apart come round to all of them.
const STRIDE: usize = 71;

/// The pages of a commit: how many, and whether they are neighbours or far apart.
#[derive(Clone, Copy)]
pub struct Plan {
    pub pages: usize,
    pub neighbours: bool,
}

pub struct Subject<S: PageStore + ?Sized> {
    pub store: Box<S>,
    versions: Vec<u32>,
    turn: usize,
    /// Pages that were to be committed since they were last read back.
    unread: Vec<u32>,
}

/// The i-th page of an order that goes through all of them, far apart.
pub fn spread(i: usize) -> u32 {
    FIRST + (i * STRIDE % WRITTEN as usize) as u32
}

fn neighbour(i: usize) -> u32 {
    FIRST + (i % WRITTEN as usize) as u32
}

/// Bytes that tell page and version, at both ends too, so that neither a stale nor a half-copied
/// page passes.
fn page_bytes(oid: u32, version: u32) -> Page {
    let mut page = [(oid % 251) as u8; BLOCK];
    for at in [0, BLOCK - 8] {
        page[at..at + 4].copy_from_slice(&oid.to_le_bytes());
        page[at + 4..at + 8].copy_from_slice(&version.to_le_bytes());
    }
    page
}

/// What every page holds before anything is measured.
pub fn first_pages() -> Vec<(u32, Page)> {
    (FIRST..FIRST + WRITTEN)
        .map(|oid| (oid, page_bytes(oid, 0)))
        .collect()
}

impl<S: PageStore + ?Sized> Subject<S> {
    pub fn new(store: Box<S>) -> Subject<S> {
        Subject {
            store,
            versions: vec![0; WRITTEN as usize],
            turn: 0,
            unread: Vec::new(),
        }
    }

    /// What a page holds now.
    pub fn page(&self, oid: u32) -> Page {
        page_bytes(oid, self.versions[(oid - FIRST) as usize])
    }

    /// New bytes for the next pages of a plan; the caller commits them.
    pub fn next_batch(&mut self, plan: Plan) -> Vec<(u32, Page)> {
        let order = if plan.neighbours { neighbour } else { spread };
        let from = self.turn;
        self.turn += plan.pages;
        (from..self.turn).map(|i| self.changed(order(i))).collect()
    }

    fn changed(&mut self, oid: u32) -> (u32, Page) {
        self.versions[(oid - FIRST) as usize] += 1;
        self.unread.push(oid);
        (oid, self.page(oid))
    }

    /// Brings a store that was started into use: every page is written since then, and home. Those
    /// that are not written again are read back at the end.
    pub fn bring_into_use(&mut self) {
        let oids: Vec<u32> = (FIRST..FIRST + WRITTEN).collect();
        for some in oids.chunks(MANY) {
            let batch: Vec<_> = some.iter().map(|oid| self.changed(*oid)).collect();
            commit(&mut *self.store, &batch);
        }
        bring_home(&mut *self.store);
        self.unread.clear();
    }

    /// Pages read as they were last committed, by the store as it is and after a restart.
    pub fn verify(&mut self) {
        self.unread.sort_unstable();
        self.unread.dedup();
        self.compare();
        self.restart();
        self.compare();
        self.unread.clear();
    }

    pub fn verify_all(&mut self) {
        self.unread = (FIRST..FIRST + WRITTEN).collect();
        self.verify();
    }

    /// Drops what is not committed, and leaves nothing of the last commit to do.
    fn restart(&mut self) {
        self.store.stop();
        self.store.start();
        bring_home(&mut *self.store);
    }

    fn compare(&mut self) {
        let mut page = [0; BLOCK];
        for oid in &self.unread {
            self.store.read(*oid, &mut page);
            assert!(page == self.page(*oid), "page {oid} reads other bytes");
        }
    }
}
