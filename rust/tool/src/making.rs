//! What format and import have in common: a card is made, by `lane::file`.

use crate::arguments::{usage, Arguments};
use crate::explain::format_finding;
use crate::failure::Failure;
use crate::text::{counted, pages};
use crate::verdict::Verdict;
use lane::file::{Error, Lane, Options, Promise, Room};
use lane::Range;
use std::path::Path;

pub struct Making<'a> {
    pub path: &'a Path,
    pub area: u32,
    pub ranges: &'a [Range],
    pub replace: bool,
    pub promise: Promise,
}

pub fn promise(arguments: &Arguments) -> Result<Promise, Failure> {
    match arguments.value("--promise") {
        None | Some("asked") => Ok(Promise::Asked),
        Some("vouched") => Ok(Promise::Vouched),
        Some("kill") => Ok(Promise::Kill),
        Some(word) => Err(usage(format!(
            "--promise is asked, vouched or kill, not {word}"
        ))),
    }
}

impl Making<'_> {
    /// The card, open. Pages that come to it may be committed one without the other.
    pub fn create(&self) -> Result<Lane, Failure> {
        let mut options = Options::new();
        options.promise(self.promise).replace(self.replace);
        let lane = options
            .room(Room::Commit)
            .create(self.path, self.area as usize, self.ranges);
        lane.map_err(|error| self.failed(error))
    }

    /// Geometry in words.
    pub fn said(&self) -> String {
        let all = self.ranges.iter().map(|range| range.pages as usize).sum();
        let ranges = counted(self.ranges.len(), "range", "ranges");
        format!("A {}, {ranges}, {}", self.area, pages(all))
    }

    /// Why the card was not made.
    fn failed(&self, error: Error) -> Failure {
        let path = self.path.display();
        match error {
            Error::Refused(refusal) => {
                let verdict = Verdict {
                    refusal: Some(refusal),
                    finding: format_finding(self.area, self.ranges),
                };
                Failure::Bad(format!("{path}: {verdict}"))
            }
            Error::Exists => Failure::Bad(format!("{path}: {error}\n--replace asks for it")),
            Error::Promise(_) => {
                let less = "--promise vouched and --promise kill ask for less";
                Failure::Bad(format!("{path}: {error}\n{less}"))
            }
            Error::Length { .. } => Failure::Bad(format!("{path}: {error}")),
            _ => Failure::file(self.path, error),
        }
    }
}
