//! A day on a layer over a recorded drive. At every point of it cards are made that a cut may
//! leave; each is opened by the layer again and held to the tables.

mod failing;
mod judged;

use crate::block::{block, commit, trailer, Block, HEADER};
use crate::cuts::Effort;
use crate::day::Call;
use crate::doubt::Doubt;
use crate::foretold::{made, Foretold};
use crate::layer::{Answer, Fault, Lane, Layer};
use crate::opened::shows;
use crate::recorded::{shared, Event, Shared};
use crate::rng::Rng;
use crate::shape::Shape;
use crate::tables::{Pages, Tables};
use crate::tally::Tally;
use crate::wrong::Wrong;
use lane::{Report, BLOCK};
use std::collections::HashSet;

/// What all days of a run share.
pub struct Run {
    pub tally: Tally,
    pub rng: Rng,
    /// Cards that were opened, each with the table that it was held to.
    seen: HashSet<u64>,
}

impl Run {
    pub fn new(seed: u64) -> Run {
        Run {
            tally: Tally::default(),
            rng: Rng::new(seed),
            seen: HashSet::new(),
        }
    }

    /// Cards of earlier days may be opened again, by another layer or on another card.
    pub fn forget(&mut self) {
        self.seen.clear();
    }
}

/// What stands on the drive before a create.
#[derive(Clone)]
pub struct Before {
    pub bytes: Vec<u8>,
    /// What it shows, if it is a card.
    pub shows: Option<Pages>,
}

/// What a card may be.
#[derive(Clone)]
enum Life {
    /// Refused 3 or 4, or empty; with the old header the old card, if there was one.
    Creating(Option<Box<(Block, Pages)>>),
    Made,
}

/// Which of the tally's cards they are.
#[derive(Clone, Copy, PartialEq)]
enum Part {
    Plain,
    Failed,
    Second,
}

pub struct Trial<'a> {
    run: &'a mut Run,
    layer: &'a dyn Layer,
    shape: &'a Shape,
    effort: Effort,
    oids: Vec<u32>,
    homes: Vec<usize>,
    tables: Tables,
    doubt: Doubt,
    record: Shared,
    lane: Option<Box<dyn Lane>>,
    told: Vec<String>,
    /// How many of the record's events are in doubt or flushed by now, and were before the last
    /// call.
    walked: usize,
    from: usize,
    /// The forecast after each call.
    foretold: Vec<u32>,
    life: Life,
    part: Part,
}

impl<'a> Trial<'a> {
    /// A day that begins on a drive with these bytes; no call is made yet.
    pub fn new(
        run: &'a mut Run,
        layer: &'a dyn Layer,
        shape: &'a Shape,
        before: Before,
        effort: Effort,
    ) -> Trial<'a> {
        let oids = shape.oids();
        let header = block(&before.bytes, HEADER);
        let doubt = Doubt::new(&before.bytes);
        run.tally.days += 1;
        Trial {
            run,
            layer,
            shape,
            effort,
            tables: Tables::empty(oids.len()),
            oids,
            homes: shape.homes(),
            doubt,
            record: shared(before.bytes),
            lane: None,
            told: vec![layer.name(), shape.to_string()],
            walked: 0,
            from: 0,
            foretold: Vec::new(),
            life: Life::Creating(before.shows.map(|pages| Box::new((header, pages)))),
            part: Part::Plain,
        }
    }

    pub fn record(&self) -> &Shared {
        &self.record
    }

    pub fn tables(&self) -> &Tables {
        &self.tables
    }

    pub fn foretold(&self) -> &[u32] {
        &self.foretold
    }

    /// Creates the card, with cuts or without.
    pub fn create(&mut self, cut: bool) -> Result<(), Wrong> {
        self.run.tally.calls += 1;
        let made = self.layer.create(&self.record, self.shape);
        self.walk(cut)?;
        match made {
            Ok(lane) => self.lane = Some(lane),
            Err(fault) => return self.wrong(format!("create is answered {fault:?}")),
        }
        self.life = Life::Made;
        self.told.push("create: done".to_string());
        self.run.tally.points += u64::from(cut);
        self.answered()
    }

    /// Opens the empty card that the day begins with.
    pub fn found(&mut self) -> Result<(), Wrong> {
        self.life = Life::Made;
        self.told.push("formatted over any bytes".to_string());
        self.call(&Call::Reopen, false)
    }

    /// Makes a call, with cuts at every point of it or without.
    pub fn call(&mut self, call: &Call, cut: bool) -> Result<(), Wrong> {
        let answer = self.make(call, cut)?;
        self.run.tally.points += u64::from(cut);
        self.finish(call, &answer)
    }

    /// Makes a call and brings what it recorded into doubt.
    fn make(&mut self, call: &Call, cut: bool) -> Result<Answer, Wrong> {
        self.run.tally.calls += 1;
        self.tables.begin(call, self.shape.room);
        self.from = self.walked;
        let answer = self.answer(call);
        self.told.push(format!("{call}: {}", answer.text()));
        self.walk(cut)?;
        if let Answer::Report(Some(report)) = answer {
            self.reported(report)?;
        }
        Ok(answer)
    }

    /// What an advance reports has reached the drive.
    fn reported(&self, report: Report) -> Result<(), Wrong> {
        let reached = |event: &Event| match (event, report.block()) {
            (Event::Write { first, bytes, .. }, Some(block)) => {
                (*first..first + bytes.len() / BLOCK).contains(&block)
            }
            (Event::Flush { .. }, None) => true,
            _ => false,
        };
        match self.record.borrow().events()[self.from..]
            .iter()
            .any(reached)
        {
            true => Ok(()),
            false => self.wrong(format!("{report} has not reached the drive")),
        }
    }

    /// Holds the answer to the tables, and what is safe from now on to the headers in doubt.
    fn finish(&mut self, call: &Call, answer: &Answer) -> Result<(), Wrong> {
        if *call == Call::Reopen && *answer == Answer::Done {
            let shown = commit(self.record.borrow().bytes());
            let opened = self.tables.opened(shown);
            opened.or_else(|what| self.wrong(what))?;
            self.shows_present()?;
        }
        let ended = self.tables.end(call, self.shape.room, answer);
        ended.or_else(|what| self.wrong(what))?;
        self.answered()?;
        self.hold_forecast(call, answer)
    }

    /// What was foretold before the call has come. A lane that was just opened foretells nothing.
    fn hold_forecast(&mut self, call: &Call, answer: &Answer) -> Result<(), Wrong> {
        let lane = self.lane.as_mut().expect("the lane is open");
        let after = match lane.forecast() {
            Ok(after) => after,
            Err(fault) => return self.wrong(format!("forecast is answered {fault:?}")),
        };
        let foretold = Foretold {
            call,
            answer,
            room: self.shape.room,
            before: self.foretold.last().copied().unwrap_or(0),
            after,
            made: made(&self.record.borrow().events()[self.from..]),
        };
        self.foretold.push(after);
        self.run.tally.foretold += u64::from(foretold.before > 0);
        foretold.holds().or_else(|what| self.wrong(what))
    }

    fn answer(&mut self, call: &Call) -> Answer {
        if *call == Call::Reopen {
            return self.reopen();
        }
        let lane = self.lane.as_mut().expect("the lane is open");
        let oid = |page: &usize| self.oids[*page];
        let answer = match call {
            Call::Key(page) => lane.key(oid(page)).map(Answer::Count),
            Call::Read(page) => read(&mut **lane, oid(page)),
            Call::Write { page, at, bytes } => {
                let key = lane.key(oid(page));
                done(key.and_then(|count| lane.write(oid(page), count, *at, bytes)))
            }
            Call::Rescind(page) => {
                let key = lane.key(oid(page));
                done(key.and_then(|count| lane.rescind(oid(page), count)))
            }
            Call::Snapshot => done(lane.snapshot()),
            Call::Finish => done(lane.finish()),
            Call::Commit => done(lane.commit()),
            Call::Advance => lane.advance().map(Answer::Report),
            Call::ToHeader => to_header(&mut **lane).map(Answer::Report),
            Call::Settle => done(lane.settle()),
            Call::Reopen => unreachable!("answered above"),
        };
        answer.unwrap_or_else(Answer::Fault)
    }

    /// Drops the lane, which records nothing, and opens it anew.
    fn reopen(&mut self) -> Answer {
        let events = self.record.borrow().events().len();
        self.lane = None;
        if self.record.borrow().events().len() != events {
            let what = "a lane that is dropped writes or flushes".to_string();
            self.record.borrow_mut().wrong(what);
        }
        match self.layer.open(&self.record, self.shape) {
            Ok(lane) => {
                self.lane = Some(lane);
                Answer::Done
            }
            Err(fault) => Answer::Fault(fault),
        }
    }

    /// The lane that is open shows what is present.
    fn shows_present(&mut self) -> Result<(), Wrong> {
        let pages = self.tables.present().clone();
        let lane = self.lane.as_mut().expect("the lane is open");
        let shown = shows(&mut **lane, &self.oids, &pages);
        shown.or_else(|what| self.wrong(format!("opened without a cut: {what}")))
    }

    /// Brings what was recorded meanwhile into doubt, one event after the other.
    fn walk(&mut self, cut: bool) -> Result<(), Wrong> {
        let events = self.record.borrow().events()[self.walked..].to_vec();
        for event in &events {
            self.walked += 1;
            if let Event::Write { first, bytes, .. } = event {
                let end = first * BLOCK + bytes.len();
                if end > self.shape.length() {
                    return self.wrong("a write behind the card's end".to_string());
                }
                self.header_written(*first, bytes);
            }
            self.doubt.apply(event);
            if cut {
                self.point()?;
            }
        }
        let wrong = self.record.borrow_mut().take_wrong();
        match wrong {
            Some(what) => self.wrong(what),
            None => Ok(()),
        }
    }

    fn header_written(&mut self, first: usize, bytes: &[u8]) {
        if first != HEADER || matches!(self.life, Life::Creating(_)) {
            return;
        }
        let last = self.doubt.headers().pop().expect("at least one");
        self.run.tally.rounds += u64::from(trailer(bytes) < trailer(&last));
        self.tables.header(commit(bytes));
    }

    /// Every header that a cut may leave now must be one of a snapshot that is not older than the
    /// last that was answered done.
    fn answered(&mut self) -> Result<(), Wrong> {
        for header in self.doubt.headers() {
            if let Err(what) = self.tables.shown(commit(&header)) {
                return self.wrong(format!("at the answer {what}"));
            }
        }
        Ok(())
    }

    pub fn wrong<T>(&self, what: String) -> Result<T, Wrong> {
        self.tell(what, "none opened".to_string())
    }

    fn tell<T>(&self, what: String, blocks: String) -> Result<T, Wrong> {
        let record = self.record.borrow();
        let events = &record.events()[..self.walked];
        Err(Wrong::new(what, &self.told, events, blocks))
    }
}

fn done(answer: Result<(), Fault>) -> Result<Answer, Fault> {
    answer.map(|()| Answer::Done)
}

fn read(lane: &mut dyn Lane, oid: u32) -> Result<Answer, Fault> {
    let count = lane.key(oid)?;
    let mut page = Box::new([0; BLOCK]);
    lane.read(oid, count, &mut page)?;
    Ok(Answer::Page(page))
}

/// Advances until a header is written, or nothing is due.
fn to_header(lane: &mut dyn Lane) -> Result<Option<Report>, Fault> {
    loop {
        let report = lane.advance()?;
        if let Some(Report::H(_)) | None = report {
            return Ok(report);
        }
    }
}
