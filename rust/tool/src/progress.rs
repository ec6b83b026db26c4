//! How far a long command is: one line on standard error, written over and over.

use crate::text::thousands;
use std::io::{self, IsTerminal, Write};
use std::time::{Duration, Instant};

/// Pages of a card that takes long enough to be watched.
const LARGE: usize = 4096;
const EVERY: Duration = Duration::from_millis(100);

pub struct Progress {
    what: &'static str,
    of: usize,
    shown: bool,
    /// When the line is to be written again.
    due: Instant,
    written: bool,
}

impl Progress {
    /// Shown if it is asked for, and on a terminal for a large card.
    pub fn new(what: &'static str, of: usize, asked: bool) -> Progress {
        Progress {
            what,
            of,
            shown: asked || (of >= LARGE && io::stderr().is_terminal()),
            due: Instant::now(),
            written: false,
        }
    }

    pub fn none() -> Progress {
        let mut progress = Progress::new("", 0, false);
        progress.shown = false;
        progress
    }

    pub fn at(&mut self, done: usize) {
        if self.shown && Instant::now() >= self.due {
            self.write(done);
            self.due = Instant::now() + EVERY;
        }
    }

    /// The line stays with all pages done.
    pub fn end(mut self) {
        if self.shown {
            self.write(self.of);
        }
    }

    /// That the line cannot be written is no reason to stop.
    fn write(&mut self, done: usize) {
        let (done, of) = (thousands(done), thousands(self.of));
        let line = format!("\r{}: {done} of {of} pages", self.what);
        let _ = io::stderr().write_all(line.as_bytes());
        self.written = true;
    }
}

/// Whatever comes next on standard error begins a line of its own.
impl Drop for Progress {
    fn drop(&mut self) {
        if self.written {
            let _ = io::stderr().write_all(b"\n");
        }
    }
}
