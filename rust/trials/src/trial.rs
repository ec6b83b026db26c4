//! Makes calls on the library and on the reference, and compares all that the
//! call's promise determines.

use crate::call::{Answer, Buffer, Call};
use crate::doctored::form::{self, Entry};
use crate::drive::Drive;
use crate::empties::{amid, Amid, Home};
use crate::foretold::Foretold;
use crate::library::{Library, Record, RECORD};
use crate::limits::{told, FULL};
use crate::list::Lending;
use crate::reference::{Reference, Reply};
use crate::rng::Rng;
use crate::stock::{difference, Stock};
use crate::tally::Tally;
use model::blocks::{get, number, Block, TRAILER_AT};
use model::geometry::BLOCK;
use model::{Book, Geometry, Lent};
use std::collections::BTreeSet;

/// Cards of up to so many blocks are compared whole after each call. Of larger ones
/// the reported block and its neighbours are, and the whole card after each
/// format and start, after every 32nd call and at the end of the list.
const COMPARED_WHOLE: usize = 128;
/// Of cards with more pages than this, and no full directory, only a sample of
/// OIDs is looked at.
const LOOKED_AT_WHOLE: usize = 48;
/// Of the OIDs that calls have named, so many are looked at.
const NAMED_LOOKED_AT: usize = 256;

pub struct Trial<'t, L, R> {
    library: &'t mut L,
    pub reference: R,
    pub stock: Stock,
    /// Without a book only the reference is compared.
    pub book: Option<Book>,
    pub geometry: Geometry,
    /// Frames of memory that are lent.
    pub frames: usize,
    pub tally: &'t mut Tally,
    before: Before,
    /// How many calls were made.
    pub made: usize,
    /// The OIDs that any step has named: a page that was written and lost
    /// in a cut is among them.
    pub named: BTreeSet<u32>,
    pub drive: Drive,
    pub home: Home,
    /// What is to follow, as long as that can be told.
    pub foretold: Option<Foretold>,
}

/// Record and memory before a call. Of memory all that is lent is kept, and a
/// frame after it.
struct Before {
    record: Record,
    memory: Vec<u8>,
}

/// One call as both sides made it.
struct Exchange {
    reply: Reply,
    answer: Answer,
    /// The buffer before and after.
    lent: Buffer,
    buffer: Buffer,
    overwritten: Option<(usize, Block)>,
}

/// A call that both sides agree on.
pub struct Made {
    pub answer: Answer,
    /// The block that was written, and what it held before.
    pub overwritten: Option<(usize, Block)>,
}

impl<'t, L: Library, R: Reference> Trial<'t, L, R> {
    /// The card is lent with its slack.
    pub fn new(
        library: &'t mut L,
        mut reference: R,
        tally: &'t mut Tally,
        card: Vec<u8>,
        geometry: Geometry,
        frames: usize,
    ) -> Self {
        reference.model().card = card.clone();
        let stock = Stock::new(card);
        let before = Before {
            record: stock.record,
            memory: Vec::new(),
        };
        Trial {
            library,
            reference,
            stock,
            book: None,
            geometry,
            frames,
            tally,
            before,
            made: 0,
            named: BTreeSet::new(),
            drive: Drive::default(),
            home: Home::default(),
            foretold: None,
        }
    }

    pub fn lent(&self, lending: Lending) -> Lent {
        let card = lending.card.unwrap_or(self.geometry.blocks * BLOCK);
        let memory = lending.memory.unwrap_or(self.frames * BLOCK);
        Lent {
            card: card.min(self.stock.card.len()),
            memory: memory.min(self.stock.memory.len()),
        }
    }

    /// Is there a record other than that of a refused start?
    pub fn is_started(&mut self) -> bool {
        self.reference.model().store.is_some()
    }

    pub fn present_count(&mut self, oid: u32) -> u32 {
        match &self.book {
            Some(book) => book.present(oid).count,
            None => {
                let lent = self.lent(Lending::default());
                self.reference.model().key(lent, oid).unwrap_or(0)
            }
        }
    }

    /// Makes a call and compares answer, buffer, card, memory and record.
    pub fn make(&mut self, call: &Call, lending: Lending) -> Result<Made, String> {
        let lent = self.lent(lending);
        self.made += 1;
        self.named.extend(call.oid());
        self.note(lent);
        let amid = match call {
            Call::Start => amid(self.reference.model()),
            _ => None,
        };
        let entries = self.entries_before(call);
        let exchange = self.exchange(call, lent);
        self.tally.count(call, &exchange.answer)?;
        exchange.compare()?;
        self.compare_book(call, &exchange.answer, exchange.buffer.lent())?;
        self.compare_record(call, &exchange.answer)?;
        self.hold_forecast(call, &exchange.answer)?;
        self.compare_memory(call, &exchange.answer, lent)?;
        self.note_sizes(call, &exchange.answer, lent);
        self.note_empties(call, &exchange.answer, amid);
        self.note_store(call, &exchange.answer, &entries);
        let whole =
            matches!(call, Call::Format { .. } | Call::Start) || self.made.is_multiple_of(32);
        if whole || self.geometry.blocks <= COMPARED_WHOLE {
            self.compare_card()?;
        } else if let Answer::Wrote(_, block) = exchange.answer {
            self.compare_blocks(block.saturating_sub(1), block + 1)?;
        }
        Ok(Made {
            answer: exchange.answer,
            overwritten: exchange.overwritten,
        })
    }

    /// The current directory before a change.
    fn entries_before(&mut self, call: &Call) -> Vec<Entry> {
        let store = self.reference.model().store.as_ref();
        let store = store.filter(|_| call.changes_memory());
        store.map_or(Vec::new(), |store| form::entries(&store.current))
    }

    /// A start shows what is lent, a snapshot how full a directory has become,
    /// and some answers that a limit is reached.
    fn note_sizes(&mut self, call: &Call, answer: &Answer, lent: Lent) {
        if *call == Call::Start && answer.is_done() {
            self.tally
                .count_start(lent.card / BLOCK, lent.memory / BLOCK);
        }
        if let Some(told) = told(call, lent, &self.stock.card) {
            self.tally.limits.count_asked(call, answer, &told);
        }
        let model = self.reference.model();
        self.tally.limits.count_full(answer, model);
        let pending = model
            .store
            .as_ref()
            .and_then(|store| store.pending.as_ref());
        if let (Call::Snapshot, Some(pending)) = (call, pending) {
            self.tally.fullest = self.tally.fullest.max(pending.changes.e());
        }
    }

    /// `amid` is the migration that a start has found.
    fn note_empties(&mut self, call: &Call, answer: &Answer, amid: Option<Amid>) {
        let empties = &mut self.tally.empties;
        empties.count_made(call, answer, self.reference.model(), &mut self.home);
        if let Some(amid) = amid.filter(|_| answer.is_done()) {
            empties.count_start(amid);
        }
    }

    /// Where the call came to among ranges and in directories; `before` is the
    /// current one before a change.
    fn note_store(&mut self, call: &Call, answer: &Answer, before: &[Entry]) {
        if let Some(store) = &self.reference.model().store {
            self.tally.borders.count_made(call, answer, store);
            let directories = &mut self.tally.directories;
            directories.count_made(call, answer, before, store);
        }
    }

    /// A forecast beside the calls, as the library and the reference answer it.
    pub fn forecast(&mut self, lent: Lent) -> [Answer; 2] {
        let call = Call::Forecast;
        let answer = self.library.make(&call, self.stock.lend(lent), &mut []);
        [answer, self.reference.make(&call, lent, &[]).answer]
    }

    /// The reference goes first, so that the card still has the old block.
    fn exchange(&mut self, call: &Call, lent: Lent) -> Exchange {
        let before = call.buffer();
        let mut buffer = before;
        let reply = self.reference.make(call, lent, before.lent());
        let wrote = reply.wrote;
        let overwritten = wrote.map(|block| (block, get(&self.stock.card, block)));
        let loan = self.stock.lend(lent);
        let answer = self.library.make(call, loan, buffer.lend());
        Exchange {
            reply,
            answer,
            lent: before,
            buffer,
            overwritten,
        }
    }

    fn note(&mut self, lent: Lent) {
        let kept = lent.memory.max(self.frames * BLOCK) + BLOCK;
        let kept = kept.min(self.stock.memory.len());
        self.before.record = self.stock.record;
        self.before.memory.clear();
        let memory = &self.stock.memory[..kept];
        self.before.memory.extend_from_slice(memory);
    }

    /// A call that is refused or changes nothing leaves the record; a refused
    /// start makes it zeros. Any other leaves one that tells the model's state.
    fn compare_record(&mut self, call: &Call, answer: &Answer) -> Result<(), String> {
        let record = &self.stock.record.0;
        let mut expected = self.before.record.0;
        if call.changes_record() && answer.is_done() {
            let store = self.reference.model().store.as_ref();
            if let (true, Some(store)) = (L::KEEPS_FORM, store) {
                form::compare(&self.stock.record, store)?;
            }
            expected[..RECORD].copy_from_slice(&record[..RECORD]);
        } else if *call == Call::Start {
            expected[..RECORD].fill(0);
        }
        match difference(record, &expected) {
            None => Ok(()),
            Some(at) => Err(format!(
                "answers {answer}, record byte {at} is {}, not {}",
                record[at], expected[at]
            )),
        }
    }

    /// Only a change that is done writes memory, and only what is lent.
    fn compare_memory(&self, call: &Call, answer: &Answer, lent: Lent) -> Result<(), String> {
        let changes = call.changes_memory() && answer.is_done();
        let from = if changes { lent.memory } else { 0 };
        let memory = &self.stock.memory[from..self.before.memory.len()];
        match difference(memory, &self.before.memory[from..]) {
            None => Ok(()),
            Some(at) => Err(format!("memory byte {} has changed", from + at)),
        }
    }

    pub fn compare_card(&mut self) -> Result<(), String> {
        self.compare_blocks(0, self.stock.card.len() / BLOCK - 1)
    }

    /// Compares these blocks, both ends too.
    fn compare_blocks(&mut self, from: usize, to: usize) -> Result<(), String> {
        let bytes = from * BLOCK..(to + 1) * BLOCK;
        let card = &self.stock.card[bytes.clone()];
        let expected = &self.reference.model().card[bytes];
        let Some(at) = difference(card, expected) else {
            return Ok(());
        };
        Err(format!(
            "card block {} byte {} is {}, the model has {}",
            from + at / BLOCK,
            at % BLOCK,
            card[at],
            expected[at]
        ))
    }

    /// Key and read give what the book has as present.
    fn compare_book(&self, call: &Call, answer: &Answer, page: &[u8]) -> Result<(), String> {
        let (Some(book), Some(oid)) = (&self.book, call.oid()) else {
            return Ok(());
        };
        let expected = book.present(oid);
        match (call, answer) {
            (Call::Key { .. }, Answer::Count(count)) if *count != expected.count => Err(format!(
                "OID {oid} has count {count}, the book has {}",
                expected.count
            )),
            (Call::Read { .. }, Answer::Done) => match difference(page, &expected.bytes) {
                None => Ok(()),
                Some(at) => Err(format!(
                    "byte {at} of OID {oid} is {}, the book has {}",
                    page[at], expected.bytes[at]
                )),
            },
            _ => Ok(()),
        }
    }

    /// Key and read of one OID, which both must be done.
    fn look(&mut self, oid: u32) -> Result<(), String> {
        let count = self.present_count(oid);
        let length = BLOCK;
        let lent = self.lent(Lending::default());
        for call in [Call::Key { oid }, Call::Read { oid, count, length }] {
            let exchange = self.exchange(&call, lent);
            self.tally.looks += 1;
            exchange.compare()?;
            let answer = exchange.answer;
            if !answer.is_done() {
                return Err(format!("{} {oid} answers {answer}", call.name()));
            }
            self.compare_book(&call, &answer, exchange.buffer.lent())?;
        }
        Ok(())
    }

    /// Does the card hold a full directory?
    fn has_full_directory(&self) -> bool {
        let card = &self.stock.card;
        let trailer = number(card, 8) as usize;
        trailer > 0 && number(card, trailer * BLOCK + TRAILER_AT + 12) as usize == FULL
    }

    /// A look after a start, at all OIDs if it has found a full directory.
    pub fn look_after_start(&mut self) -> Result<(), String> {
        self.look_at_all()?;
        if self.book.is_some() && self.has_full_directory() {
            self.tally.limits.count_found();
        }
        for oid in self.oids() {
            let model = self.reference.model();
            self.tally.empties.count_found(oid, model, &self.home);
        }
        Ok(())
    }

    /// Looks at all OIDs, or at a sample of them, which changes nothing.
    pub fn look_at_all(&mut self) -> Result<(), String> {
        let lent = self.lent(Lending::default());
        self.note(lent);
        for oid in self.oids() {
            self.look(oid)?;
        }
        let unchanging = Call::Key { oid: 0 };
        self.compare_record(&unchanging, &Answer::Done)?;
        self.compare_memory(&unchanging, &Answer::Done, lent)?;
        if self.geometry.blocks <= COMPARED_WHOLE {
            self.compare_card()?;
        }
        Ok(())
    }

    /// All OIDs of a small card or behind a full directory; else those named,
    /// the borders and some more.
    fn oids(&self) -> Vec<u32> {
        let pages: usize = self.geometry.ranges.iter().map(|r| r.pages as usize).sum();
        if pages <= LOOKED_AT_WHOLE || self.has_full_directory() {
            let ranges = self.geometry.ranges.iter();
            return ranges
                .flat_map(|r| (0..r.pages).map(|i| r.first + i))
                .collect();
        }
        let mut rng = Rng::new(self.made as u64);
        let mut oids = self.named_oids(&mut rng);
        for range in &self.geometry.ranges {
            oids.push(range.first);
            oids.push(range.first + (range.pages - 1));
        }
        for _ in 0..12 {
            let range = rng.pick(&self.geometry.ranges);
            oids.push(range.first + rng.below(range.pages as usize) as u32);
        }
        oids
    }

    /// The named OIDs of the ranges; of many a sample.
    fn named_oids(&self, rng: &mut Rng) -> Vec<u32> {
        let named = self.named.iter().copied();
        let mut oids: Vec<u32> = named
            .filter(|oid| self.geometry.place(*oid).is_ok())
            .collect();
        while oids.len() > NAMED_LOOKED_AT {
            oids.swap_remove(rng.below(oids.len()));
        }
        oids
    }
}

impl Exchange {
    fn compare(&self) -> Result<(), String> {
        if self.answer != self.reply.answer {
            return Err(format!(
                "answers {}, the model {}",
                self.answer, self.reply.answer
            ));
        }
        let mut expected = self.lent;
        if let Some(page) = &self.reply.page {
            expected.lend().copy_from_slice(page);
        }
        match difference(&self.buffer.bytes, &expected.bytes) {
            None => Ok(()),
            Some(at) => Err(format!(
                "buffer byte {at} is {}, the model has {}",
                self.buffer.bytes[at], expected.bytes[at]
            )),
        }
    }
}
