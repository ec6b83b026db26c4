//! What a call should answer and write: the model, asked like the library.

use crate::call::{Answer, Call};
use model::blocks::Block;
use model::{Kind, Lent, Model, Refusal};

pub struct Reply {
    pub answer: Answer,
    /// What a read that is done fills the buffer with.
    pub page: Option<Block>,
    /// The block that page-out or advance wrote.
    pub wrote: Option<usize>,
}

pub trait Reference {
    /// Makes one call; `bytes` is what a write is lent.
    fn make(&mut self, call: &Call, lent: Lent, bytes: &[u8]) -> Reply;

    fn model(&mut self) -> &mut Model;

    /// Is what it foretells held to the advances that follow? Without, the book
    /// alone is left.
    fn foretells(&self) -> bool {
        true
    }
}

impl Reference for Model {
    fn make(&mut self, call: &Call, lent: Lent, bytes: &[u8]) -> Reply {
        let mut page = None;
        let mut wrote = None;
        let answer = match *call {
            Call::Format { area, ref ranges } => done(self.format(lent.card, area, ranges)),
            Call::Start => done(self.start(lent)),
            Call::Key { oid } => self.key(lent, oid).map(Answer::Count),
            Call::Read { oid, count, length } => self.read(lent, oid, count, length).map(|bytes| {
                page = Some(bytes);
                Answer::Done
            }),
            Call::Write { oid, count, at, .. } => done(self.write(lent, oid, count, at, bytes)),
            Call::Rescind { oid, count } => done(self.rescind(lent, oid, count)),
            Call::Snapshot => done(self.snapshot(lent)),
            Call::PageOut => self.page_out(lent).map(|block| {
                wrote = Some(block);
                Answer::Wrote(Kind::P, block)
            }),
            Call::Advance => return advanced(self.advance(lent)),
            Call::Forecast => self.forecast(lent).map(Answer::Foretold),
        };
        Reply {
            answer: answer.unwrap_or_else(Answer::Refused),
            page,
            wrote,
        }
    }

    fn model(&mut self) -> &mut Model {
        self
    }
}

/// What an advance replies; F writes no block.
pub fn advanced(result: Result<(Kind, usize), Refusal>) -> Reply {
    let written = result.ok().filter(|(kind, _)| *kind != Kind::F);
    let answer = result.map(|(kind, block)| Answer::Wrote(kind, block));
    Reply {
        answer: answer.unwrap_or_else(Answer::Refused),
        page: None,
        wrote: written.map(|(_, block)| block),
    }
}

fn done(result: Result<(), Refusal>) -> Result<Answer, Refusal> {
    result.map(|()| Answer::Done)
}
