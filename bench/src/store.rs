//! What every store that is measured can do with pages of a block by OID.

use lane::BLOCK;
use std::path::PathBuf;

pub type Page = [u8; BLOCK];

pub trait PageStore {
    fn read(&mut self, oid: u32, page: &mut Page);
    fn begin(&mut self) {}
    fn write(&mut self, oid: u32, page: &Page);
    /// Returns once what was written since `begin` is durable.
    fn commit(&mut self);
    /// Does what the next commit would otherwise have to do for the last one.
    fn settle(&mut self) {}
    /// Does what a program with many commits in a row has to do after each, lest it pile up.
    fn keep_up(&mut self) {}
    /// Lets go of the store as a kill does: nothing more is written.
    fn stop(&mut self);
    fn start(&mut self);
    /// The files that it is in, while it is stopped.
    fn files(&self) -> Vec<PathBuf>;
}

/// Writes pages, and commits them.
pub fn commit<S: PageStore + ?Sized>(store: &mut S, pages: &[(u32, Page)]) {
    store.begin();
    for (oid, page) in pages {
        store.write(*oid, page);
    }
    store.commit();
}

/// Leaves nothing of the commits so far to do.
pub fn bring_home<S: PageStore + ?Sized>(store: &mut S) {
    store.keep_up();
    store.settle();
}
