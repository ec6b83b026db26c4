//! A lane store over a card in memory alone, so that the library's own time shows.

use crate::card::WAITING;
use crate::store::{commit, Page, PageStore};
use model::Kind;
use std::path::PathBuf;

/// Refusals that a program goes by.
const MEMORY_FULL: u32 = 14;
const NOTHING_DUE: u32 = 20;
const FLUSH_DUE: u32 = 28;

/// Done, or the number of the question that was answered "no".
pub type Answer = Result<(), u32>;

/// Document 01's calls on a store that has its card and memory. Every key has count 0.
pub trait Calls {
    fn card(&self) -> &[u8];
    fn start(&mut self) -> Answer;
    fn key(&mut self, oid: u32) -> Result<u32, u32>;
    fn read(&mut self, oid: u32, page: &mut Page) -> Answer;
    fn write(&mut self, oid: u32, page: &Page) -> Answer;
    fn rescind(&mut self, oid: u32) -> Answer;
    fn snapshot(&mut self) -> Answer;
    fn page_out(&mut self) -> Answer;
    fn advance(&mut self) -> Result<Kind, u32>;
}

/// A formatted store. Where it is asked for a flush there is nothing to do.
pub struct Controller {
    pub calls: Box<dyn Calls>,
}

impl Controller {
    pub fn new(calls: Box<dyn Calls>, pages: &[(u32, Page)]) -> Controller {
        let mut c = Controller { calls };
        for batch in pages.chunks(WAITING) {
            commit(&mut c, batch);
            c.settle();
        }
        c
    }

    pub fn change(&mut self, pages: &[(u32, Page)]) {
        for (oid, page) in pages {
            self.write(*oid, page);
        }
    }

    /// The next block write or flush, if one is due.
    pub fn advance(&mut self) -> Option<Kind> {
        match self.calls.advance() {
            Ok(kind) => Some(kind),
            Err(NOTHING_DUE) => None,
            Err(no) => panic!("advance is refused {no}"),
        }
    }

    /// Drops what is not committed.
    pub fn abort(&mut self) {
        self.start();
        self.settle();
    }

    /// After a start or a header write its flush comes first, and this makes only that.
    fn page_out(&mut self) {
        match self.calls.page_out() {
            Ok(()) => {}
            Err(FLUSH_DUE) => assert_eq!(self.advance(), Some(Kind::F), "a flush is due"),
            Err(no) => panic!("page-out is refused {no}"),
        }
    }
}

impl PageStore for Controller {
    fn read(&mut self, oid: u32, page: &mut Page) {
        self.calls.read(oid, page).expect("read");
    }

    /// Pages out where memory is full.
    fn write(&mut self, oid: u32, page: &Page) {
        while let Err(no) = self.calls.write(oid, page) {
            assert_eq!(no, MEMORY_FULL, "write");
            self.page_out();
        }
    }

    /// Up to the flush after the header write.
    fn commit(&mut self) {
        self.calls.snapshot().expect("snapshot");
        while self.advance().expect("a header to write") != Kind::H {}
        assert_eq!(self.advance(), Some(Kind::F), "a flush after the header");
    }

    fn settle(&mut self) {
        while self.advance().is_some() {}
    }

    fn stop(&mut self) {}

    fn start(&mut self) {
        self.calls.start().expect("start");
    }

    fn files(&self) -> Vec<PathBuf> {
        Vec::new()
    }
}
