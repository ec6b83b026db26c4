//! The book: what each OID should hold, told from calls' arguments and answers
//! alone. It knows nothing of blocks, frames or the model.

use std::collections::BTreeMap;

/// What a table gives for an OID.
#[derive(Clone, Debug, PartialEq, Eq)]
pub struct Page {
    pub count: u32,
    pub bytes: [u8; 512],
}

const UNTOUCHED: Page = Page {
    count: 0,
    bytes: [0; 512],
};

/// OIDs that are not in the map are all zeros.
type Table = BTreeMap<u32, Page>;

/// After a format: present and kept all zeros, the others empty.
#[derive(Clone, Debug, Default)]
pub struct Book {
    present: Table,
    marked: Option<Table>,
    kept: Table,
    /// What was kept before the last header write, while that is not flushed.
    before: Option<Table>,
}

impl Book {
    /// A write done.
    pub fn write(&mut self, oid: u32, at: usize, bytes: &[u8]) {
        let page = self.present.entry(oid).or_insert(UNTOUCHED);
        page.bytes[at..at + bytes.len()].copy_from_slice(bytes);
    }

    /// A rescind done.
    pub fn rescind(&mut self, oid: u32) {
        let page = self.present.entry(oid).or_insert(UNTOUCHED);
        page.count = page.count.wrapping_add(1);
        page.bytes = UNTOUCHED.bytes;
    }

    /// A snapshot done.
    pub fn snapshot(&mut self) {
        self.marked = Some(self.present.clone());
    }

    /// A header write was reported; until a flush a cut may find it old.
    pub fn header(&mut self) {
        self.before = Some(self.kept.clone());
        if let Some(marked) = self.marked.take() {
            self.kept = marked;
        }
    }

    /// A flush was reported: no header write can be found old any more.
    pub fn flush(&mut self) {
        self.before = None;
    }

    /// A cut, with whether the header write that is not flushed or is being
    /// made, if any, reached the card. What is found then stays.
    pub fn cut(&mut self, reached: bool) {
        match (self.before.take(), reached) {
            (Some(before), false) => self.kept = before,
            (None, true) => self.header(),
            _ => {}
        }
        self.flush();
    }

    /// A start done. A header write before it can still be found old.
    pub fn start(&mut self) {
        self.present = self.kept.clone();
        self.marked = None;
    }

    /// What the book gives for an OID now; after a start it is what was kept.
    pub fn present(&self, oid: u32) -> &Page {
        self.present.get(&oid).unwrap_or(&UNTOUCHED)
    }

    /// For a card that was doctored between its format and a start.
    pub fn doctor(&mut self, oid: u32, page: Page) {
        self.kept.insert(oid, page);
    }
}
