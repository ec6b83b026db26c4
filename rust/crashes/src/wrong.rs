//! What a trial has found wrong.

use crate::recorded::Event;
use lane::BLOCK;
use std::fmt;

/// So many of the last writes and flushes are told.
const LAST: usize = 24;

/// What is wrong, and how it came to be.
#[derive(Debug)]
pub struct Wrong {
    what: String,
    /// The layer and the card, then calls with their answers.
    told: Vec<String>,
    /// The last writes and flushes.
    point: Vec<String>,
    blocks: String,
}

impl fmt::Display for Wrong {
    fn fmt(&self, f: &mut fmt::Formatter<'_>) -> fmt::Result {
        for line in &self.told {
            writeln!(f, "  {line}")?;
        }
        writeln!(f, "point: {}", self.point.join(", "))?;
        writeln!(f, "card: {}", self.blocks)?;
        write!(f, "{}", self.what)
    }
}

impl Wrong {
    /// With the card and the calls, what was recorded up to the point, and the unflushed blocks.
    pub fn new(what: String, told: &[String], events: &[Event], blocks: String) -> Wrong {
        let last = events.len().saturating_sub(LAST);
        Wrong {
            what,
            told: told.to_vec(),
            point: events[last..].iter().map(text).collect(),
            blocks,
        }
    }
}

fn text(event: &Event) -> String {
    match event {
        Event::Write { first, bytes, done } => {
            let failed = if *done { "" } else { ", failed" };
            format!("write {first} + {}{failed}", bytes.len() / BLOCK)
        }
        Event::Flush { done: true } => "flush".to_string(),
        Event::Flush { done: false } => "flush, failed".to_string(),
        Event::Length(length) => format!("length {length}"),
    }
}
