//! The plain model, which has its card in memory of its own.

use crate::card::{self, AREA, FRAMES};
use crate::controller::{Answer, Calls};
use crate::store::Page;
use lane::BLOCK;
use model::{Kind, Lent, Model};

pub struct Modelled {
    model: Model,
    lent: Lent,
}

impl Modelled {
    /// Formats a card and starts.
    pub fn new() -> Modelled {
        let lent = Lent {
            card: card::length(),
            memory: FRAMES * BLOCK,
        };
        let mut model = Model::new(vec![0; lent.card]);
        model
            .format(lent.card, AREA, &card::numbers())
            .expect("format");
        model.start(lent).expect("start");
        Modelled { model, lent }
    }
}

impl Calls for Modelled {
    fn card(&self) -> &[u8] {
        &self.model.card
    }

    fn start(&mut self) -> Answer {
        self.model.start(self.lent)
    }

    fn key(&mut self, oid: u32) -> Result<u32, u32> {
        self.model.key(self.lent, oid)
    }

    fn read(&mut self, oid: u32, page: &mut Page) -> Answer {
        *page = self.model.read(self.lent, oid, 0, BLOCK)?;
        Ok(())
    }

    fn write(&mut self, oid: u32, page: &Page) -> Answer {
        self.model.write(self.lent, oid, 0, 0, page)
    }

    fn rescind(&mut self, oid: u32) -> Answer {
        self.model.rescind(self.lent, oid, 0)
    }

    fn snapshot(&mut self) -> Answer {
        self.model.snapshot(self.lent)
    }

    fn page_out(&mut self) -> Answer {
        self.model.page_out(self.lent).map(|_| ())
    }

    fn advance(&mut self) -> Result<Kind, u32> {
        self.model.advance(self.lent).map(|(kind, _)| kind)
    }
}
