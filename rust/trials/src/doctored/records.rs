//! Doctored records: each call answers a number it has, and refused it has
//! changed nothing.

use super::broken::{doctored, Doctored};
use super::form::{put_size, MIGRATED};
use super::{calls_on, in_state, Failed, State};
use crate::call::{Answer, Call};
use crate::foretold::Foretold;
use crate::library::{Library, Record, RECORD};
use crate::list::Lending;
use crate::rng::Rng;
use crate::stock::{difference, Stock};
use crate::tally::Tally;
use crate::trial::Trial;
use model::blocks::{get, put};
use model::geometry::BLOCK;
use model::{Kind, Lent, Model, Phase, Store};

/// Of a thousand records that hold together, so many are advanced as far as they
/// foretell.
const COUNTED_DOWN: usize = 125;

/// Doctors the record of a store in that state.
pub fn doctor<L: Library>(
    library: &mut L,
    tally: &mut Tally,
    state: State,
    mut rng: Rng,
) -> Result<(), Failed> {
    let mut found = None;
    in_state(library, tally, state, &mut rng, |trial| {
        let oid = trial.geometry.ranges[0].first;
        let count = trial.present_count(oid);
        let lent = trial.lent(Lending::default());
        let store = trial.reference.store.clone();
        let mut good = trial.stock.clone();
        good.memory.truncate(lent.memory + BLOCK);
        migrate_from_any(trial)?;
        let later = later_record(trial)?;
        found = store.map(|store| (store, good, later, lent, calls_on(oid, count)));
        Ok(())
    })?;
    let (store, good, later, lent, calls) = found.ok_or("no state was found".to_string())?;
    let made = doctored(&good.record, &store)?;
    let mut doctor = Doctor {
        library,
        tally,
        stock: good.clone(),
        before: good.clone(),
        good,
        changed: Vec::new(),
        lent,
        calls,
    };
    doctor.all(&later, &mut rng)?;
    doctor.sentences(&made)?;
    // A record of zeros has memory length 0.
    Ok(doctor.try_refused(1, &Record::ZEROS, "zeros")?)
}

/// Records that count any number of entries as migrated, with a model that does
/// so too: the next advances are alike, and leave a record that tells the same.
/// While a flush is owed and before H there is only one such number.
fn migrate_from_any<L: Library>(trial: &mut Trial<'_, L, Model>) -> Result<(), String> {
    let (stock, model) = (trial.stock.clone(), trial.reference.clone());
    let Some((e, now, phase)) = model.store.as_ref().and_then(migration) else {
        return Ok(());
    };
    let any = phase == Phase::Writing;
    for migrated in (0..=e).filter(|number| any || *number == now) {
        let tried = migrate_from(migrated, trial);
        tried.map_err(|what| format!("from {migrated} migrated: {what}"))?;
        (trial.stock, trial.reference) = (stock.clone(), model.clone());
        trial.foretold = None;
    }
    Ok(())
}

/// The committed entries, how many are home or passed over, and the phase.
fn migration(store: &Store) -> Option<(usize, usize, Phase)> {
    let committed = store.committed.as_ref()?;
    Some((committed.entries.len(), committed.migrated, store.phase))
}

fn migrate_from<L: Library>(
    migrated: usize,
    trial: &mut Trial<'_, L, Model>,
) -> Result<(), String> {
    trial.foretold = None;
    put_size(&mut trial.stock.record, MIGRATED, migrated);
    let store = trial.reference.store.as_mut();
    if let Some(committed) = store.and_then(|store| store.committed.as_mut()) {
        committed.migrated = migrated;
    }
    for _ in 0..3 {
        trial.make(&Call::Advance, Lending::default())?;
    }
    Ok(())
}

/// A later record of the same store, to splice the good one with.
fn later_record<L: Library>(trial: &mut Trial<'_, L, Model>) -> Result<Record, String> {
    for call in [Call::PageOut, Call::Advance, Call::Snapshot] {
        trial.make(&call, Lending::default())?;
    }
    Ok(trial.stock.record)
}

struct Doctor<'t, L> {
    library: &'t mut L,
    tally: &'t mut Tally,
    good: Stock,
    stock: Stock,
    /// What the next call is lent.
    before: Stock,
    /// The blocks in which the card differs from the good one.
    changed: Vec<usize>,
    lent: Lent,
    calls: Vec<Call>,
}

impl<L: Library> Doctor<'_, L> {
    fn all(&mut self, later: &Record, rng: &mut Rng) -> Result<(), String> {
        let good = self.good.record;
        for at in 0..RECORD {
            for _ in 0..2 {
                let mut record = good;
                record.0[at] ^= 1 << rng.below(8);
                self.try_record(&record, rng)?;
            }
        }
        for at in (0..RECORD).step_by(4) {
            self.try_record(&other_word(&good, at, rng), rng)?;
        }
        for _ in 0..1000 {
            self.try_record(&spliced(&good, later, rng), rng)?;
        }
        for _ in 0..50 {
            let mut record = good;
            rng.fill(&mut record.0);
            self.try_record(&record, rng)?;
        }
        let mut record = good;
        record.0.fill(0xFF);
        self.try_record(&record, rng)
    }

    /// Records that break one sentence of question 2, or just keep it.
    fn sentences(&mut self, made: &Doctored) -> Result<(), String> {
        for broken in &made.broken {
            self.tally.broken.insert(broken.sentence.clone());
            let what = format!("{} {}", broken.sentence, broken.what);
            self.try_refused(2, &broken.record, &what)?;
        }
        for record in &made.held {
            self.try_held(record)?;
        }
        Ok(())
    }

    fn try_record(&mut self, record: &Record, rng: &mut Rng) -> Result<(), String> {
        self.tally.doctored_records += 1;
        let at = difference(&record.0, &self.good.record.0).unwrap_or(0);
        let tried = self.try_calls(record, rng);
        tried.map_err(|what| format!("record byte {at} made {}: {what}", record.0[at]))
    }

    /// Each call alone, then some in a row; of some that hold together what is
    /// foretold. Questions 1 to 3 are the same for all these calls, so each
    /// answers them alike.
    fn try_calls(&mut self, record: &Record, rng: &mut Rng) -> Result<(), String> {
        let mut alike = None;
        for i in 0..self.calls.len() {
            self.lend(record);
            let no = unheld(self.call(i)?);
            if *alike.get_or_insert(no) != no {
                let name = self.calls[i].name();
                return Err(format!("{name}: question 2 is not answered alike"));
            }
        }
        self.lend(record);
        for _ in 0..6 {
            let i = rng.below(self.calls.len());
            let no = unheld(self.call(i)?);
            // A call hands back a record that holds together if it was lent one.
            if alike.is_some_and(|alike| alike != no) {
                let name = self.calls[i].name();
                return Err(format!("{name}: the record no longer holds"));
            }
        }
        if alike == Some(None) && rng.chance(COUNTED_DOWN) {
            self.count_down(record)?;
        }
        Ok(())
    }

    /// The good card and memory with that record.
    fn lend(&mut self, record: &Record) {
        for block in std::mem::take(&mut self.changed) {
            let bytes = get(&self.good.card, block);
            put(&mut self.stock.card, block, &bytes);
            put(&mut self.before.card, block, &bytes);
        }
        self.stock.memory.copy_from_slice(&self.good.memory);
        self.before.memory.copy_from_slice(&self.good.memory);
        self.stock.record = *record;
    }

    /// A record for which every call must answer that number.
    fn try_refused(&mut self, number: u32, record: &Record, what: &str) -> Result<(), String> {
        self.tally.doctored_records += 1;
        for i in 0..self.calls.len() {
            self.lend(record);
            let answer = self.call(i)?;
            if answer != Answer::Refused(number) {
                let name = self.calls[i].name();
                return Err(format!("{name}, {what}: answers {answer}"));
            }
        }
        Ok(())
    }

    /// A record that holds together, for the card and memory that are lent.
    fn try_held(&mut self, record: &Record) -> Result<(), String> {
        self.tally.doctored_records += 1;
        for i in 0..self.calls.len() {
            self.lend(record);
            if let Some(number) = unheld(self.call(i)?) {
                let name = self.calls[i].name();
                return Err(format!("{name}, at a limit that is kept: answers {number}"));
            }
        }
        let counted = self.count_down(record);
        counted.map_err(|what| format!("at a limit that is kept: {what}"))
    }

    /// What is foretold of a record that holds together must follow.
    fn count_down(&mut self, record: &Record) -> Result<(), String> {
        self.lend(record);
        let mut foretold = None;
        loop {
            let Answer::Foretold(advances) = self.make(&Call::Forecast)? else {
                return Err("forecast is refused".into());
            };
            let before = Foretold::told(foretold, advances)?;
            if advances == 0 {
                self.tally.forecasts.count_doctored(before);
                return Ok(());
            }
            let answer = self.make(&Call::Advance)?;
            foretold = before.after(&Call::Advance, &answer)?;
        }
    }

    fn call(&mut self, i: usize) -> Result<Answer, String> {
        let call = self.calls[i].clone();
        self.make(&call)
    }

    fn make(&mut self, call: &Call) -> Result<Answer, String> {
        let lent = call.buffer();
        let mut buffer = lent;
        self.before.record = self.stock.record;
        let loan = self.stock.lend(self.lent);
        let answer = self.library.make(call, loan, buffer.lend());
        self.tally.count(call, &answer)?;
        let reads = matches!(call, Call::Read { .. }) && answer.is_done();
        let from = if reads { BLOCK } else { 0 };
        let blocks = self.changed_blocks();
        let fault = if lent.bytes[from..] != buffer.bytes[from..] {
            Some("the buffer")
        } else if answer.is_done() {
            self.changed_wrongly(call, &answer, &blocks)
        } else {
            self.changed_though_refused(&blocks)
        };
        if let Some(what) = fault {
            let name = call.name();
            return Err(format!("{name} answers {answer} and changes {what}"));
        }
        self.keep(&blocks);
        Ok(answer)
    }

    /// What a call has changed is what the next one is lent.
    fn keep(&mut self, blocks: &[usize]) {
        for block in blocks {
            put(
                &mut self.before.card,
                *block,
                &get(&self.stock.card, *block),
            );
        }
        self.changed.extend(blocks);
        self.before.memory.copy_from_slice(&self.stock.memory);
    }

    fn changed_though_refused(&self, blocks: &[usize]) -> Option<&'static str> {
        if self.stock.record != self.before.record {
            Some("the record")
        } else if self.stock.memory != self.before.memory {
            Some("memory")
        } else if !blocks.is_empty() {
            Some("the card")
        } else {
            None
        }
    }

    /// What no call that is done may change, whatever its record says.
    fn changed_wrongly(
        &self,
        call: &Call,
        answer: &Answer,
        blocks: &[usize],
    ) -> Option<&'static str> {
        let from = if call.changes_memory() {
            self.lent.memory
        } else {
            0
        };
        if self.stock.memory[from..] != self.before.memory[from..] {
            return Some("memory it should not");
        }
        if !call.changes_record() && self.stock.record != self.before.record {
            return Some("the record");
        }
        if self.stock.record.margin() != self.before.record.margin() {
            return Some("bytes after the record");
        }
        // F reports block 0 and writes none.
        let written = match answer {
            Answer::Wrote(kind, block) if *kind != Kind::F => Some(block),
            _ => None,
        };
        let wrong = blocks.iter().any(|block| Some(block) != written);
        wrong.then_some("blocks it should not")
    }

    fn changed_blocks(&self) -> Vec<usize> {
        if self.stock.card == self.before.card {
            return Vec::new();
        }
        let pairs = self
            .stock
            .card
            .chunks(BLOCK)
            .zip(self.before.card.chunks(BLOCK));
        let changed = pairs.enumerate().filter(|(_, (now, before))| now != before);
        changed.map(|(block, _)| block).collect()
    }
}

/// Which of questions 1 to 3 was answered "no", if one was.
fn unheld(answer: Answer) -> Option<u32> {
    answer.number().filter(|number| (1..=3).contains(number))
}

/// One word made a number at some border, or another word of the record.
fn other_word(good: &Record, at: usize, rng: &mut Rng) -> Record {
    let mut record = *good;
    let from = 4 * rng.below(RECORD / 4);
    let mut other = [0; 4];
    other.copy_from_slice(&good.0[from..from + 4]);
    let borders = [0, 1, 2, 64, 255, 256, 257, 512, u32::MAX];
    let border = rng.pick(&borders).to_le_bytes();
    let word = rng.pick(&[border, other]);
    record.0[at..at + 4].copy_from_slice(&word);
    record
}

/// A stretch of one record in another one of the same store.
fn spliced(good: &Record, later: &Record, rng: &mut Rng) -> Record {
    let mut record = *good;
    let from = 4 * rng.below(RECORD / 4);
    let to = rng.between(from, RECORD);
    record.0[from..to].copy_from_slice(&later.0[from..to]);
    record
}
