//! The proved library, as a Rust program has it that lends it a card in memory.

use crate::card::{self, AREA, FRAMES, RANGES};
use crate::controller::{Answer, Calls};
use crate::store::Page;
use lane::{Key, Refusal, Report, Store, BLOCK};
use model::Kind;

pub struct Proved {
    store: Store,
    card: Vec<u8>,
    memory: Vec<u8>,
}

fn key(oid: u32) -> Key {
    Key { oid, count: 0 }
}

impl Proved {
    /// Formats a card and starts.
    pub fn new() -> Proved {
        let mut card = vec![0; card::length()];
        let memory = vec![0; FRAMES * BLOCK];
        lane::format(&mut card, AREA, &RANGES).expect("format");
        let store = Store::start(&card, &memory).expect("start");
        Proved {
            store,
            card,
            memory,
        }
    }
}

impl Calls for Proved {
    fn card(&self) -> &[u8] {
        &self.card
    }

    fn start(&mut self) -> Answer {
        self.store = Store::start(&self.card, &self.memory).map_err(Refusal::number)?;
        Ok(())
    }

    fn key(&mut self, oid: u32) -> Result<u32, u32> {
        let key = self.store.key(&self.card, &self.memory, oid);
        key.map(|k| k.count).map_err(Refusal::number)
    }

    fn read(&mut self, oid: u32, page: &mut Page) -> Answer {
        self.store
            .read(&self.card, &self.memory, key(oid), page)
            .map_err(Refusal::number)
    }

    fn write(&mut self, oid: u32, page: &Page) -> Answer {
        self.store
            .write(&self.card, &mut self.memory, key(oid), 0, page)
            .map_err(Refusal::number)
    }

    fn rescind(&mut self, oid: u32) -> Answer {
        self.store
            .rescind(&self.card, &mut self.memory, key(oid))
            .map_err(Refusal::number)
    }

    fn snapshot(&mut self) -> Answer {
        self.store
            .snapshot(&self.card, &self.memory)
            .map_err(Refusal::number)
    }

    fn page_out(&mut self) -> Answer {
        let written = self.store.page_out(&mut self.card, &self.memory);
        written.map(|_| ()).map_err(Refusal::number)
    }

    fn advance(&mut self) -> Result<Kind, u32> {
        let written = self.store.advance(&mut self.card, &self.memory);
        written.map_err(Refusal::number).map(|w| match w {
            Report::P(_) => Kind::P,
            Report::D(_) => Kind::D,
            Report::T(_) => Kind::T,
            Report::M(_) => Kind::M,
            Report::H(_) => Kind::H,
            Report::F(_) => Kind::F,
            other => unreachable!("the model knows no {other}"),
        })
    }
}
