//! Runs a list: format, start, the steps, and a last start to see what is kept.

use crate::call::{Answer, Call};
use crate::cuts;
use crate::drive::{Down, Left, Unflushed};
use crate::empties::Home;
use crate::library::Library;
use crate::list::{numbers, Lending, List, Restart, Step};
use crate::reference::Reference;
use crate::stock::{fill, CARD_SLACK};
use crate::tally::Tally;
use crate::trial::{Made, Trial};
use model::blocks::{get, number, put, put_number, TRAILER_AT};
use model::geometry::BLOCK;
use model::{Book, Geometry, Kind, Page};
use std::fmt;

/// Bytes 510 and 511 of a pot, which are kept.
const SPARE: usize = 510;

/// The first difference of a list.
#[derive(Debug)]
pub struct Failure {
    /// 0 is the setting up, one more than the last step the end.
    pub step: usize,
    pub what: String,
}

impl fmt::Display for Failure {
    fn fmt(&self, f: &mut fmt::Formatter) -> fmt::Result {
        match self.step {
            0 => write!(f, "setting up: {}", self.what),
            step => write!(f, "step {step}: {}", self.what),
        }
    }
}

/// Runs a list to its end, and then looks at what is present and what is kept.
pub fn run<L: Library, R: Reference>(
    library: &mut L,
    reference: R,
    list: &List,
    tally: &mut Tally,
) -> Result<(), Failure> {
    let mut trial = run_steps(library, reference, list, tally)?;
    trial.finish().map_err(|what| Failure {
        step: list.steps.len() + 1,
        what,
    })
}

/// Runs a list up to its last step.
pub fn run_steps<'t, L: Library, R: Reference>(
    library: &'t mut L,
    reference: R,
    list: &List,
    tally: &'t mut Tally,
) -> Result<Trial<'t, L, R>, Failure> {
    let mut card = vec![0; list.geometry.blocks * BLOCK + CARD_SLACK];
    fill(list.filler, &mut card);
    let geometry = list.geometry.clone();
    let mut trial = Trial::new(library, reference, tally, card, geometry, list.frames);
    trial.book = Some(Book::default());
    let set_up = trial.set_up();
    set_up.map_err(|what| Failure { step: 0, what })?;
    for (i, step) in list.steps.iter().enumerate() {
        let done = trial.step(step);
        done.map_err(|what| Failure { step: i + 1, what })?;
    }
    Ok(trial)
}

impl<L: Library, R: Reference> Trial<'_, L, R> {
    /// A start on the unformatted card, then format and start.
    fn set_up(&mut self) -> Result<(), String> {
        self.make(&Call::Start, Lending::default())?;
        let call = Call::Format {
            area: self.geometry.area,
            ranges: numbers(&self.geometry),
        };
        self.call(call, Lending::default())
    }

    pub fn step(&mut self, step: &Step) -> Result<(), String> {
        match step {
            Step::Call { call, lending } => self.call(call.clone(), *lending),
            Step::Cut {
                call,
                down,
                left,
                restart,
            } => {
                // Before a format is complete only the program starts anew.
                if self.drive.can_be_cut() {
                    self.cut(call.clone(), down, *left)?;
                }
                self.restart(*restart)
            }
            Step::DoctorCommit(commit) => self.doctor_commit(*commit),
            Step::DoctorPot { oid, count, flags } => self.doctor_pot(*oid, *count, *flags),
            Step::DoctorGeometry {
                blocks,
                area,
                ranges,
            } => self.doctor_geometry(*blocks, *area, ranges),
        }
    }

    /// The call with the count that its distance from the present one tells.
    fn counted(&mut self, mut call: Call) -> Call {
        let present = call.oid().map_or(0, |oid| self.present_count(oid));
        if let Some(count) = call.count_mut() {
            *count = count.wrapping_add(present);
        }
        call
    }

    /// A call, its step in the book, and what follows from it.
    fn call(&mut self, call: Call, lending: Lending) -> Result<(), String> {
        let call = self.counted(call);
        let lent = self.lent(lending);
        let made = self.make(&call, lending)?;
        if !made.answer.is_done() {
            return Ok(());
        }
        self.tell_drive(&call, &made);
        self.enter(&call, &made.answer);
        match call {
            Call::Format { area, ranges } => {
                let blocks = lent.card / BLOCK;
                let geometry = Geometry::new(blocks, area, &ranges);
                self.geometry = geometry.ok_or("format is done on limits not kept")?;
                self.restart(Restart::plain(self.frames))
            }
            Call::Start => {
                self.frames = lent.memory / BLOCK;
                self.look_after_start()
            }
            _ => Ok(()),
        }
    }

    /// A call that is done goes into the book.
    fn enter(&mut self, call: &Call, answer: &Answer) {
        let Some(book) = &mut self.book else {
            return;
        };
        match (call, answer) {
            (Call::Format { .. }, _) => *book = Book::default(),
            (Call::Start, _) => book.start(),
            (Call::Write { oid, at, .. }, _) => book.write(*oid, *at, call.buffer().lent()),
            (Call::Rescind { oid, .. }, _) => book.rescind(*oid),
            (Call::Snapshot, _) => book.snapshot(),
            (Call::Advance, Answer::Wrote(Kind::H, _)) => book.header(),
            (Call::Advance, Answer::Wrote(Kind::F, _)) => book.flush(),
            _ => {}
        }
    }

    /// What a call that is done means to the drive.
    fn tell_drive(&mut self, call: &Call, made: &Made) {
        match (call, made.answer) {
            (Call::Format { .. }, _) => {
                self.drive.format();
                self.home = Home::default();
            }
            (Call::Start, _) => self.drive.start(),
            (Call::Advance, Answer::Wrote(Kind::F, _)) => self.drive.flush(),
            _ => {
                if let Some(write) = self.unflushed(call, made) {
                    self.drive.write(write);
                }
            }
        }
    }

    fn unflushed(&self, call: &Call, made: &Made) -> Option<Unflushed> {
        let (block, old) = made.overwritten?;
        Some(Unflushed {
            row: cuts::row(call, &made.answer),
            block,
            old,
            new: get(&self.stock.card, block),
            started: false,
        })
    }

    /// A cut, between calls or in one, whose answer is lost. The book is told
    /// what became of the header write.
    fn cut(&mut self, call: Option<Call>, down: &Down, left: Left) -> Result<(), String> {
        let mut making = None;
        if let Some(call) = call {
            let call = self.counted(call);
            let made = self.make(&call, Lending::default())?;
            making = self.unflushed(&call, &made);
        }
        let found = self.drive.cut(making, down, left);
        self.tally.cuts.count(&found);
        self.doctor(|card| {
            for (block, bytes) in &found.blocks {
                put(card, *block, bytes);
            }
        });
        if let Some(book) = &mut self.book {
            book.cut(found.header_reached());
        }
        Ok(())
    }

    /// Record and memory are lost, then start, which must be done. Without a
    /// cut before it the drive's writes stay as they are.
    fn restart(&mut self, restart: Restart) -> Result<(), String> {
        self.frames = restart.frames;
        for _ in 0..1 + usize::from(restart.again) {
            self.stock.lose(restart.lost);
            let made = self.make(&Call::Start, Lending::default())?;
            if !made.answer.is_done() {
                return Err(format!("a start that must be done answers {}", made.answer));
            }
            self.tell_drive(&Call::Start, &made);
            self.enter(&Call::Start, &made.answer);
        }
        self.look_after_start()
    }

    /// A card is doctored at rest: with all writes flushed, and started anew.
    fn rest(&mut self) -> Result<(), String> {
        self.drive.flush();
        if let Some(book) = &mut self.book {
            book.flush();
        }
        self.restart(Restart::plain(self.frames))
    }

    /// Changes both cards alike.
    fn doctor(&mut self, change: impl Fn(&mut [u8])) {
        change(&mut self.stock.card);
        change(&mut self.reference.model().card);
    }

    /// With commit 0 there is no trailer to rewrite, and nothing is doctored.
    fn doctor_commit(&mut self, commit: u32) -> Result<(), String> {
        self.rest()?;
        let trailer = number(&self.stock.card, 8) as usize;
        if trailer != 0 {
            self.doctor(|card| {
                put_number(card, 4, commit);
                put_number(card, trailer * BLOCK + TRAILER_AT, commit);
            });
        }
        self.restart(Restart::plain(self.frames))
    }

    fn doctor_pot(&mut self, oid: u32, count: u32, flags: u8) -> Result<(), String> {
        self.named.insert(oid);
        self.rest()?;
        let Some(store) = &self.reference.model().store else {
            return Err("the reference has not started".into());
        };
        let Ok(place) = store.geometry.place(oid) else {
            return Ok(());
        };
        let page = get(&self.stock.card, store.kept_block(place.page));
        let pot = store.kept_block(place.pot) * BLOCK;
        let at = pot + place.at;
        self.doctor(|card| {
            put_number(card, at, count);
            card[at + 4] = flags;
            card[pot + SPARE..pot + BLOCK].fill(flags);
        });
        let bytes = if flags & 1 == 1 { [0; BLOCK] } else { page };
        if let Some(book) = &mut self.book {
            book.doctor(oid, Page { count, bytes });
        }
        self.restart(Restart::plain(self.frames))
    }

    /// A start that need not be done.
    fn doctor_geometry(&mut self, blocks: usize, area: u32, ranges: &[u32]) -> Result<(), String> {
        self.rest()?;
        let header = get(&self.stock.card, 0);
        let told = [&[area, ranges.len() as u32 / 2], ranges].concat();
        self.doctor(|card| {
            for (i, number) in told.iter().enumerate() {
                put_number(card, 12 + 4 * i, *number);
            }
        });
        let card = Some(blocks * BLOCK);
        self.make(&Call::Start, Lending { card, memory: None })?;
        self.doctor(|card| put(card, 0, &header));
        self.restart(Restart::plain(self.frames))
    }

    /// Looks at what is present, then at what is kept.
    fn finish(&mut self) -> Result<(), String> {
        if self.is_started() {
            self.look_at_all()?;
        }
        self.restart(Restart::plain(self.frames))?;
        self.compare_card()
    }
}
