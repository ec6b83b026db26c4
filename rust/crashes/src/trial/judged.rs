//! The cards of a point: each is opened by the layer and held to the tables, and some are gone on
//! with.

use super::{Life, Part, Trial};
use crate::block::{block, commit, Block, ZEROS};
use crate::cuts::{cuts, Cut, Effort};
use crate::day::{more, Call};
use crate::doubt::{Doubt, Left};
use crate::layer::{Fault, Lane};
use crate::opened::shows;
use crate::recorded::{shared, Event, Record, Shared};
use crate::tables::Pages;
use crate::wrong::Wrong;

/// What the cards of a second cut are made of.
const SECOND: Effort = Effort {
    all: 24,
    random: 4,
    spoilt: 1,
    go_on: 0,
};

/// What a card must show.
struct Right {
    pages: Pages,
    /// Tells it from others.
    mark: u64,
    may_be_refused: bool,
    /// Migration passes over a page of its committed generation.
    passes_over: bool,
}

impl Trial<'_> {
    /// The cards that a cut may leave here.
    pub(super) fn point(&mut self) -> Result<(), Wrong> {
        self.run.tally.points += 1;
        let left = self.doubt.left();
        for cut in cuts(&left, &self.effort, &mut self.run.rng) {
            self.judge(&left, &cut)?;
        }
        Ok(())
    }

    fn judge(&mut self, left: &Left, cut: &Cut) -> Result<(), Wrong> {
        let right = match self.right(&cut.header(left)) {
            Ok(right) => right,
            Err(what) => return self.tell(what, cut.text(left)),
        };
        if !cut.is_spoilt() && !self.run.seen.insert(self.mark(left, cut, &right)) {
            return Ok(());
        }
        let card = cut.card(left);
        self.count(left, cut);
        self.count_empty(&card, &right);
        let record = shared(card);
        let opened = match self.layer.open(&record, self.shape) {
            Ok(mut lane) => {
                let shown = shows(&mut *lane, &self.oids, &right.pages);
                shown.map(|()| Some(lane))
            }
            Err(Fault::Refused(3 | 4)) if right.may_be_refused => Ok(None),
            Err(fault) => Err(format!("opening is answered {fault:?}")),
        };
        let opened = opened.and_then(|lane| untouched(&mut record.borrow_mut()).map(|()| lane));
        match opened {
            Ok(Some(lane)) => self.may_go_on(&cut.text(left), lane, record),
            Ok(None) => Ok(()),
            Err(what) => self.tell(what, cut.text(left)),
        }
    }

    /// What a card with this header must show.
    fn right(&self, header: &Block) -> Result<Right, String> {
        match &self.life {
            Life::Creating(Some(old)) if old.0 == *header => Ok(Right {
                pages: old.1.clone(),
                mark: 2,
                may_be_refused: false,
                passes_over: false,
            }),
            Life::Creating(_) => Ok(Right {
                pages: self.tables.present().clone(),
                mark: 1,
                may_be_refused: true,
                passes_over: false,
            }),
            Life::Made => {
                let table = self.tables.shown(commit(header))?;
                Ok(Right {
                    pages: table.pages.clone(),
                    mark: table.mark.rotate_left(7),
                    may_be_refused: false,
                    passes_over: table.passes_over(),
                })
            }
        }
    }

    /// A number of the card and of all that it is held to and counted as.
    fn mark(&self, left: &Left, cut: &Cut, right: &Right) -> u64 {
        let header = match cut.has_new_header(left) {
            None => 0,
            Some(new) => 1 + u64::from(new),
        };
        let part = (3 * self.part as u64 + header).wrapping_mul(0x9E6C_63D0_876A_68DE);
        cut.mark(left) ^ right.mark ^ part
    }

    fn count(&mut self, left: &Left, cut: &Cut) {
        let tally = &mut self.run.tally;
        tally.cards += 1;
        tally.spoilt += u64::from(cut.is_spoilt());
        tally.torn += u64::from(cut.is_torn(left));
        match (&self.life, cut.has_new_header(left)) {
            (Life::Creating(_), _) => tally.create += 1,
            (Life::Made, Some(true)) => tally.new_headers += 1,
            (Life::Made, Some(false)) => tally.old_headers += 1,
            (Life::Made, None) => {}
        }
        match self.part {
            Part::Plain => {}
            Part::Failed => tally.after_failures += 1,
            Part::Second => tally.second += 1,
        }
    }

    /// An empty page may have any bytes at home.
    fn count_empty(&mut self, card: &[u8], right: &Right) {
        if matches!(self.life, Life::Creating(_)) {
            return;
        }
        let mut pages = right.pages.iter().zip(&self.homes);
        let behind = pages.any(|(page, home)| page.bytes == ZEROS && block(card, *home) != ZEROS);
        self.run.tally.behind_flags += u64::from(behind);
        self.run.tally.passed_over += u64::from(right.passes_over);
    }

    /// Some of the cards that were opened are gone on with, and cut again.
    fn may_go_on(&mut self, cut: &str, lane: Box<dyn Lane>, record: Shared) -> Result<(), Wrong> {
        let made = matches!(self.life, Life::Made);
        if !made || !self.run.rng.chance(self.effort.go_on) {
            return Ok(());
        }
        let mut tables = self.tables.clone();
        let commit = commit(record.borrow().bytes());
        tables.opened(commit).expect("it was judged");
        let mut told = self.told.clone();
        told.push(format!("cut: {cut}"));
        let mut calls = Vec::new();
        for _ in 0..2 {
            let length = self.run.rng.between(1, 4);
            calls.extend(more(&mut self.run.rng, self.shape, length));
            calls.push(Call::Commit);
        }
        let doubt = Doubt::new(record.borrow().bytes());
        let walked = record.borrow().events().len();
        let mut second = Trial {
            run: self.run,
            layer: self.layer,
            shape: self.shape,
            effort: SECOND,
            oids: self.oids.clone(),
            homes: self.homes.clone(),
            tables,
            doubt,
            record,
            lane: Some(lane),
            told,
            walked,
            from: walked,
            foretold: Vec::new(),
            life: Life::Made,
            part: Part::Second,
        };
        calls.iter().try_for_each(|call| second.call(call, true))
    }
}

/// Opening writes no block.
fn untouched(record: &mut Record) -> Result<(), String> {
    let writes = |event: &Event| !matches!(event, Event::Flush { .. });
    if record.events().iter().any(writes) {
        return Err("opening writes a block".to_string());
    }
    record.take_wrong().map_or(Ok(()), Err)
}
