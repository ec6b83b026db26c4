//! The ready layer in Rust, `lane::file`.

use crate::card::{AREA, RANGES, WAITING};
use crate::store::{commit, Page, PageStore};
use lane::file::{Lane, Options, Promise};
use std::path::{Path, PathBuf};

pub struct Ready {
    path: PathBuf,
    options: Options,
    lane: Option<Lane>,
}

impl Ready {
    /// A new card that holds the given pages.
    pub fn create(path: &Path, promise: Promise, pages: &[(u32, Page)]) -> Ready {
        let options = Options::new().promise(promise).clone();
        let lane = options.create(path, AREA, &RANGES).expect("create");
        let mut ready = Ready {
            path: path.to_path_buf(),
            options,
            lane: Some(lane),
        };
        for batch in pages.chunks(WAITING) {
            commit(&mut ready, batch);
        }
        ready
    }

    fn lane(&mut self) -> &mut Lane {
        self.lane.as_mut().expect("an open lane")
    }
}

impl PageStore for Ready {
    fn read(&mut self, oid: u32, page: &mut Page) {
        let lane = self.lane();
        let key = lane.key(oid).expect("key");
        lane.read(key, page).expect("read");
    }

    fn write(&mut self, oid: u32, page: &Page) {
        let lane = self.lane();
        let key = lane.key(oid).expect("key");
        lane.write(key, 0, page).expect("write");
    }

    fn commit(&mut self) {
        self.lane().commit().expect("commit");
    }

    fn settle(&mut self) {
        self.lane().settle().expect("settle");
    }

    fn stop(&mut self) {
        self.lane = None;
    }

    fn start(&mut self) {
        self.lane = Some(self.options.open(&self.path).expect("open"));
    }

    fn files(&self) -> Vec<PathBuf> {
        vec![self.path.clone()]
    }
}
