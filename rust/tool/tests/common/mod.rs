//! Cards made by the proved calls in memory, and the tool run on them.

// Each test takes what it needs of it.
#![allow(dead_code)]

use lane::{Range, Refusal, Report, Store, BLOCK};
use std::ffi::OsStr;
use std::fs;
use std::path::{Path, PathBuf};
use std::process::Command;
use std::sync::atomic::{AtomicUsize, Ordering};

/// A folder of its own, which goes with the test.
pub struct Folder(PathBuf);

impl Folder {
    pub fn new() -> Folder {
        static NEXT: AtomicUsize = AtomicUsize::new(0);
        let next = NEXT.fetch_add(1, Ordering::Relaxed);
        let name = format!("lane-tool-{}-{next}", std::process::id());
        let folder = std::env::temp_dir().join(name);
        fs::create_dir(&folder).unwrap();
        Folder(folder)
    }

    pub fn path(&self, name: &str) -> PathBuf {
        self.0.join(name)
    }

    pub fn file(&self, name: &str, bytes: impl AsRef<[u8]>) -> PathBuf {
        let path = self.path(name);
        fs::write(&path, bytes).unwrap();
        path
    }
}

impl Drop for Folder {
    fn drop(&mut self) {
        let _ = fs::remove_dir_all(&self.0);
    }
}

/// What the tool answered.
#[derive(Debug)]
pub struct Answer {
    pub status: i32,
    pub out: String,
    pub err: String,
}

impl Answer {
    /// Done, with nothing on standard error.
    pub fn done(self) -> String {
        assert_eq!((self.status, self.err.as_str()), (0, ""), "{}", self.out);
        self.out
    }

    /// Ended with that status, and a line on standard error that has these words.
    #[track_caller]
    pub fn failed(self, status: i32, words: &str) {
        assert_eq!(self.status, status, "{self:?}");
        let lines = self.err.lines().all(|line| line.starts_with("lane: "));
        assert!(lines && self.err.contains(words), "{words}: {self:?}");
    }
}

pub fn lane<W: AsRef<OsStr>>(words: &[W]) -> Answer {
    let mut command = Command::new(env!("CARGO_BIN_EXE_lane"));
    let output = command.args(words).output().unwrap();
    Answer {
        status: output.status.code().unwrap(),
        out: String::from_utf8(output.stdout).unwrap(),
        err: String::from_utf8(output.stderr).unwrap(),
    }
}

/// A command on a card, with more words.
pub fn on(command: &str, image: &Path, more: &[&str]) -> Answer {
    let mut words = vec![OsStr::new(command), image.as_os_str()];
    words.extend(more.iter().map(OsStr::new));
    lane(&words)
}

pub fn range(first: u32, pages: u32) -> Range {
    Range { first, pages }
}

/// A card in memory, and the store that was started on it.
pub struct Maker {
    pub card: Vec<u8>,
    memory: Vec<u8>,
    store: Store,
}

impl Maker {
    pub fn new(area: usize, ranges: &[Range]) -> Maker {
        Maker::over(0, area, ranges)
    }

    /// On a card that had this byte throughout before its format.
    pub fn over(byte: u8, area: usize, ranges: &[Range]) -> Maker {
        let blocks = |range: &Range| (range.pages + range.pages.div_ceil(102)) as usize;
        let home: usize = ranges.iter().map(blocks).sum();
        let mut card = vec![byte; (1 + area + home) * BLOCK];
        let memory = vec![0; 64 * BLOCK];
        lane::format(&mut card, area, ranges).unwrap();
        Maker {
            store: Store::start(&card, &memory).unwrap(),
            card,
            memory,
        }
    }

    pub fn write(&mut self, oid: u32, bytes: &[u8]) -> &mut Maker {
        let key = self.store.key(&self.card, &self.memory, oid).unwrap();
        let answer = self
            .store
            .write(&self.card, &mut self.memory, key, 0, bytes);
        answer.unwrap();
        self
    }

    pub fn rescind(&mut self, oid: u32) -> &mut Maker {
        let key = self.store.key(&self.card, &self.memory, oid).unwrap();
        let answer = self.store.rescind(&self.card, &mut self.memory, key);
        answer.unwrap();
        self
    }

    /// The oldest waiting frame to the area.
    pub fn page_out(&mut self) -> &mut Maker {
        while self.store.page_out(&mut self.card, &self.memory) == Err(Refusal::FlushDue) {
            self.advance();
        }
        self
    }

    fn advance(&mut self) -> Option<Report> {
        match self.store.advance(&mut self.card, &self.memory) {
            Err(Refusal::NothingDue) => None,
            report => Some(report.unwrap()),
        }
    }

    /// Up to the header; the pages are not home.
    pub fn commit(&mut self) -> &mut Maker {
        self.store.snapshot(&self.card, &self.memory).unwrap();
        while self.advance() != Some(Report::H(0)) {}
        self
    }

    pub fn settle(&mut self) -> &mut Maker {
        while self.advance().is_some() {}
        self
    }
}

/// The documents' whole run, "A whole image" of `docs/FORMAT.md`: one page, byte 7 at offset 0.
pub fn whole_image() -> Vec<u8> {
    let mut maker = Maker::new(8, &[range(100, 1)]);
    maker.write(100, &[7]).commit().settle();
    maker.card
}

/// Two empty pages, one of them written and rescinded before its snapshot, and other bytes at home.
pub fn emptied() -> Vec<u8> {
    let mut maker = Maker::over(9, 8, &[range(100, 2)]);
    maker.write(100, &[7]).rescind(100).commit().settle();
    maker.card
}

/// Two ranges; pages at home, in the area, rescinded; the generation goes over the end of the ring.
pub fn busy() -> Vec<u8> {
    let mut maker = Maker::new(24, &[range(100, 103), range(1000, 20)]);
    for oid in 100..105 {
        maker.write(oid, &[oid as u8; BLOCK]);
    }
    maker.rescind(103).commit().settle();
    for oid in [202, 1000, 1001] {
        maker.write(oid, b"paid");
    }
    maker.rescind(101).rescind(101).commit().settle();
    for oid in [104, 201, 1001, 1019] {
        maker.write(oid, &[1, 2, 3]);
    }
    maker.page_out().write(104, b"again").commit();
    maker.card
}

pub fn put_number(card: &mut [u8], at: usize, number: u32) {
    card[at..at + 4].copy_from_slice(&number.to_le_bytes());
}
