//! The proved library with a slip: each time a call answers a certain number, in
//! the order of a directory, or in what is foretold of a record that no call made.

use crate::call::{Answer, Call};
use crate::doctored::form::{entry_at, put_entry, size_at, Directory, Entry, PENDING};
use crate::library::{Library, Linked, Loan, Record};

#[derive(Clone, Copy)]
pub enum Slip {
    /// A byte of what was lent changes.
    Record,
    Memory,
    Card,
    Buffer,
    /// Snapshot and start answer another number.
    Number(u32),
    /// All calls answer 1.
    One,
    /// Before a call the first two entries are swapped, if there are two.
    Swapped(Directory),
    /// Entries are taken in any order.
    AnyOrder(Directory),
    /// A forecast is one more where two pending entries have one place.
    OneMore,
}

pub struct Careless {
    /// The calls that slip.
    pub on: fn(&Call) -> bool,
    /// The number, 0 if the call is done.
    pub at: u32,
    pub slip: Slip,
}

impl Library for Careless {
    fn make(&mut self, call: &Call, loan: Loan<'_>, buffer: &mut [u8]) -> Answer {
        match self.slip {
            Slip::AnyOrder(directory) => return make_in_order(directory, call, loan, buffer),
            Slip::Swapped(directory) if (self.on)(call) => swap(loan.record, directory),
            _ => {}
        }
        let Loan {
            record,
            card,
            memory,
        } = loan;
        let lent = Loan {
            record: &mut *record,
            card: &mut *card,
            memory: &mut *memory,
        };
        let answer = Linked.make(call, lent, buffer);
        if !(self.on)(call) || answer.number() != Some(self.at) {
            return answer;
        }
        match self.slip {
            Slip::Record => record.0[77] ^= 1,
            Slip::Memory => flip_last(memory),
            Slip::Card => flip_last(card),
            Slip::Buffer => flip_last(buffer),
            Slip::One => return Answer::Refused(1),
            Slip::Number(number) => {
                if matches!(call, Call::Snapshot | Call::Start) {
                    return Answer::Refused(number);
                }
            }
            Slip::OneMore => return one_more(answer, record),
            Slip::Swapped(_) | Slip::AnyOrder(_) => {}
        }
        answer
    }
}

/// The library is lent the entries in order, whatever theirs is.
fn make_in_order(directory: Directory, call: &Call, loan: Loan<'_>, buffer: &mut [u8]) -> Answer {
    let Loan {
        record,
        card,
        memory,
    } = loan;
    let mut sorted = sorted(record, directory);
    let lent = Loan {
        record: &mut sorted,
        card,
        memory,
    };
    let answer = Linked.make(call, lent, buffer);
    if *call == Call::Start || (answer.is_done() && call.changes_record()) {
        *record = sorted;
    }
    answer
}

fn one_more(answer: Answer, record: &Record) -> Answer {
    let count = size_at(record, PENDING.count);
    let place = |i| entry_at(record, PENDING, i).1;
    match answer {
        Answer::Foretold(advances) if (1..count).any(|i| place(i - 1) == place(i)) => {
            Answer::Foretold(advances + 1)
        }
        _ => answer,
    }
}

fn sorted(record: &Record, directory: Directory) -> Record {
    let mut sorted = *record;
    let count = size_at(record, directory.count).min(256);
    let mut entries: Vec<Entry> = (0..count).map(|i| entry_at(record, directory, i)).collect();
    entries.sort_unstable();
    for (i, entry) in entries.into_iter().enumerate() {
        put_entry(&mut sorted, directory, i, entry);
    }
    sorted
}

fn swap(record: &mut Record, directory: Directory) {
    let [first, second] = [0, 1].map(|i| entry_at(record, directory, i));
    if size_at(record, directory.count) > 1 {
        put_entry(record, directory, 0, second);
        put_entry(record, directory, 1, first);
    }
}

fn flip_last(bytes: &mut [u8]) {
    if let Some(last) = bytes.last_mut() {
        *last ^= 1;
    }
}
