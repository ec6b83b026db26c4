//! The model as a library, with one fault: of document 01's list, of document
//! 02's flushes, empty pages or forecast, in the order of a directory, at a
//! border of ranges, or at a limit.

mod borders;
mod directory;
mod forecast;
mod limits;
mod passing;

pub use forecast::Miscount;

use crate::call::{Answer, Call};
use crate::empties::flag;
use crate::library::{Library, Loan, RECORD};
use crate::reference::{advanced, Reference, Reply};
use model::blocks::{get, put, Block};
use model::geometry::Place;
use model::{Kind, Lent, Model, Phase, Store};
use std::collections::VecDeque;

#[derive(Clone, Copy, Debug, PartialEq)]
pub enum Fault {
    None,
    /// A pot that a write changes is written at home too.
    PotAtHome,
    /// After a rescind, a write lands on the waiting old bytes.
    OldBytes,
    /// A write to an empty page lands on what its home holds.
    HomeBytes,
    /// A write after a snapshot alters the frame still waiting for it.
    SnapshotAltered,
    /// The committed pages' blocks are free once migration has started.
    ReleasedEarly,
    /// Start always shows commit 0.
    CommitZero,
    /// The header follows the directory.
    NoTrailer,
    /// The first advance does everything, the later ones only report.
    AllAtOnce,
    /// A generation of H blocks is refused.
    TwelveTooEarly,
    WritesNothing,
    NoFlushBeforeHeader,
    NoFlushAfterHeader,
    NoFlushAfterStart,
    /// Page-out is let through while the flush after H or a start is due.
    PageOutWhileOwed,
    /// M goes by the newest view of a pot.
    EmptyByNewest,
    /// M goes by the pending generation's view of a pot.
    EmptyByPending,
    /// M goes by the flag of the page's neighbour, and passes over full pages.
    EmptyByNeighbour,
    /// M goes by the first pot of the range.
    EmptyByFirstPot,
    /// M heeds the other flag bits too.
    EmptyByAnyBit,
    /// M passes over a pot by its first flag.
    PotPassedOver,
    NothingPassedOver,
    /// M ends at the first page that is passed over: 20 and H come too early.
    MigrationEndsEarly,
    /// H does not come while only pages are left that are passed over.
    HeaderWaits,
    /// 20 does not come while only pages are left that are passed over.
    PassedReported,
    Forecast(Miscount),
    /// The directory is written in order of first change.
    DirectoryUnsorted,
    /// Key and read do not find the first or the last entry of the current
    /// directory.
    EntryMissed {
        last: bool,
    },
    /// Calls answer 21 and 9 wrongly at this border of ranges.
    Border {
        row: usize,
    },
    /// Format or start answers question 5 wrongly at this limit.
    Limit {
        row: usize,
        start: bool,
    },
    /// Start loses the 251st entry of a directory.
    EntryLost,
    /// A 251st entry is refused 12.
    EntryRefused,
    /// A 252nd entry is taken.
    EntryTooMany,
}

pub struct Faulty {
    model: Model,
    fault: Fault,
    /// What advance has done and not yet reported.
    unreported: VecDeque<(Kind, usize)>,
    /// The forecast at the last snapshot.
    foretold: usize,
}

impl Faulty {
    pub fn new(fault: Fault) -> Faulty {
        Faulty {
            model: Model::new(Vec::new()),
            fault,
            unreported: VecDeque::new(),
            foretold: 0,
        }
    }

    fn place(&self, call: &Call) -> Option<Place> {
        let store = self.model.store.as_ref()?;
        store.geometry.place(call.oid()?).ok()
    }

    /// The waiting bytes of a page whose flag is set, or those at home.
    fn old_bytes(&self, call: &Call) -> Option<Block> {
        let place = self.place(call)?;
        let store = self.model.store.as_ref()?;
        let pot = store.newest(&self.model.card, place.pot);
        let old = match self.fault {
            Fault::HomeBytes => Some(get(&self.model.card, place.page)),
            _ => store.current.waiting_bytes(place.page).copied(),
        };
        old.filter(|_| flag(&pot, &place))
    }

    fn put_pot_home(&mut self, call: &Call) -> Option<()> {
        let pot = self.place(call)?.pot;
        let store = self.model.store.as_ref()?;
        put(&mut self.model.card, pot, store.current.waiting_bytes(pot)?);
        Some(())
    }

    fn put_on(&mut self, call: &Call, old: Block, new: &[u8]) -> Option<()> {
        let page = self.place(call)?.page;
        let mut bytes = old;
        if let Call::Write { at, .. } = *call {
            bytes[at..at + new.len()].copy_from_slice(new);
        }
        self.model.store.as_mut()?.current.change(page, bytes);
        Some(())
    }

    fn alter_snapshot(&mut self, call: &Call) -> Option<()> {
        let place = self.place(call)?;
        let store = self.model.store.as_mut()?;
        let pending = store.pending.as_mut()?;
        for waiting in &mut pending.changes.waiting {
            if waiting.frame == place.page || waiting.frame == place.pot {
                waiting.bytes = *store.current.waiting_bytes(waiting.frame)?;
            }
        }
        Some(())
    }

    /// Makes a change with the committed pages not counted.
    fn change_released(&mut self, call: &Call, lent: Lent, bytes: &[u8]) -> Reply {
        let committed = |model: &mut Model, p: usize| {
            let store = model.store.as_mut()?;
            let committed = store.committed.as_mut()?;
            (committed.migrated > 0).then(|| std::mem::replace(&mut committed.p, p))
        };
        let p = committed(&mut self.model, 0);
        let reply = self.model.make(call, lent, bytes);
        if let Some(p) = p {
            committed(&mut self.model, p);
        }
        reply
    }

    fn start_at_commit_0(&mut self, lent: Lent) -> Reply {
        let header = 4..12.min(self.model.card.len());
        let told = self.model.card[header.clone()].to_vec();
        self.model.card[header.clone()].fill(0);
        let reply = self.model.make(&Call::Start, lent, &[]);
        self.model.card[header].copy_from_slice(&told);
        reply
    }

    fn advance_without_trailer(&mut self, lent: Lent) -> Reply {
        let trailer_due = self.model.due() == Some(Kind::T);
        let store = self.model.store.as_mut();
        if let Some(pending) = store.and_then(|store| store.pending.as_mut()) {
            pending.trailer_down |= trailer_due;
        }
        self.model.make(&Call::Advance, lent, &[])
    }

    fn advance_at_once(&mut self, lent: Lent) -> Reply {
        while let Ok(wrote) = self.model.advance(lent) {
            self.unreported.push_back(wrote);
        }
        match self.unreported.pop_front() {
            None => self.model.make(&Call::Advance, lent, &[]),
            Some(wrote) => advanced(Ok(wrote)),
        }
    }

    /// Refuses a write that makes the store full.
    fn refuse(&mut self, full: fn(&Store) -> bool, call: &Call, lent: Lent, bytes: &[u8]) -> Reply {
        let before = self.model.clone();
        let mut reply = self.model.make(call, lent, bytes);
        let full = |model: &Model| model.store.as_ref().is_some_and(full);
        if reply.answer == Answer::Done && full(&self.model) && !full(&before) {
            self.model = before;
            reply.answer = Answer::Refused(12);
        }
        reply
    }

    /// An advance with the fault in it.
    fn advance(&mut self, lent: Lent) -> Reply {
        match self.fault {
            Fault::AllAtOnce => self.advance_at_once(lent),
            Fault::NoFlushBeforeHeader => self.advance_to_header(lent),
            Fault::NoFlushAfterHeader => self.owe_nothing(&Call::Advance, lent),
            Fault::NoTrailer => self.advance_without_trailer(lent),
            Fault::DirectoryUnsorted => self.advance_unsorted(lent),
            Fault::HeaderWaits => self.advance_and_wait(lent),
            Fault::PassedReported => self.advance_and_report(lent),
            _ => self.advance_past_others(lent),
        }
    }

    fn phase(&self) -> Option<Phase> {
        self.model.store.as_ref().map(|store| store.phase)
    }

    fn set_phase(&mut self, phase: Phase) {
        if let Some(store) = &mut self.model.store {
            store.phase = phase;
        }
    }

    fn advance_to_header(&mut self, lent: Lent) -> Reply {
        if self.model.due() == Some(Kind::F) && self.phase() == Some(Phase::Writing) {
            self.set_phase(Phase::Flushed);
        }
        self.model.make(&Call::Advance, lent, &[])
    }

    /// Makes an advance or a start that owes no flush.
    fn owe_nothing(&mut self, call: &Call, lent: Lent) -> Reply {
        let reply = self.model.make(call, lent, &[]);
        let header = matches!(reply.answer, Answer::Wrote(Kind::H, _));
        if header || *call == Call::Start {
            self.set_phase(Phase::Writing);
        }
        reply
    }

    fn page_out_while_owed(&mut self, lent: Lent) -> Reply {
        let owed = self.phase() == Some(Phase::Owed);
        if owed {
            self.set_phase(Phase::Writing);
        }
        let reply = self.model.make(&Call::PageOut, lent, &[]);
        if owed {
            self.set_phase(Phase::Owed);
        }
        reply
    }

    /// A write or rescind with the fault in it.
    fn change(&mut self, call: &Call, lent: Lent, bytes: &[u8]) -> Reply {
        let old = self.old_bytes(call);
        let reply = match self.fault {
            Fault::ReleasedEarly => return self.change_released(call, lent, bytes),
            Fault::TwelveTooEarly => {
                let full = |store: &Store| store.current.size() == store.geometry.half();
                return self.refuse(full, call, lent, bytes);
            }
            Fault::EntryRefused => return self.refuse(limits::is_full, call, lent, bytes),
            Fault::EntryTooMany => return self.take_entry(call, lent, bytes),
            Fault::WritesNothing => return self.model.clone().make(call, lent, bytes),
            _ => self.model.make(call, lent, bytes),
        };
        if reply.answer == Answer::Done && !bytes.is_empty() {
            match (self.fault, old) {
                (Fault::PotAtHome, _) => self.put_pot_home(call),
                (Fault::SnapshotAltered, _) => self.alter_snapshot(call),
                (Fault::OldBytes | Fault::HomeBytes, Some(old)) => self.put_on(call, old, bytes),
                _ => None,
            };
        }
        reply
    }
}

impl Reference for Faulty {
    fn make(&mut self, call: &Call, lent: Lent, bytes: &[u8]) -> Reply {
        match (self.fault, call) {
            (_, Call::Advance) => self.advance(lent),
            (Fault::CommitZero, Call::Start) => self.start_at_commit_0(lent),
            (Fault::NoFlushAfterStart, Call::Start) => self.owe_nothing(call, lent),
            (Fault::PageOutWhileOwed, Call::PageOut) => self.page_out_while_owed(lent),
            (Fault::Forecast(miscount), Call::Forecast) => self.miscount(miscount, lent),
            (Fault::Forecast(Miscount::Stale), Call::Snapshot) => self.snapshot_foretold(lent),
            (Fault::Limit { row, start: false }, Call::Format { .. })
            | (Fault::Limit { row, start: true }, Call::Start) => self.pass_limit(row, call, lent),
            (Fault::EntryLost, Call::Start) => self.lose_entry(lent),
            (Fault::EntryMissed { last }, Call::Key { .. } | Call::Read { .. }) => {
                self.miss_entry(last, call, lent)
            }
            (Fault::Border { row }, call) if call.oid().is_some() => {
                self.pass_border(row, call, lent, bytes)
            }
            (_, Call::Write { .. }) => self.change(call, lent, bytes),
            _ => self.model.make(call, lent, bytes),
        }
    }

    fn model(&mut self) -> &mut Model {
        &mut self.model
    }

    /// With a fault in its steps it foretells what does not come.
    fn foretells(&self) -> bool {
        self.steps_rightly()
    }
}

/// As a library it has the lent card from format and start on, and gives back
/// what it has made of it.
impl Library for Faulty {
    /// It knows all by itself.
    const KEEPS_FORM: bool = false;

    fn make(&mut self, call: &Call, loan: Loan<'_>, buffer: &mut [u8]) -> Answer {
        let lent = Lent {
            card: loan.card.len(),
            memory: loan.memory.len(),
        };
        let mut before = Vec::new();
        if matches!(call, Call::Format { .. } | Call::Start) {
            before = std::mem::replace(&mut self.model.card, loan.card.to_vec());
            self.unreported.clear();
        }
        let reply = Reference::make(self, call, lent, buffer);
        let reads = matches!(call, Call::Key { .. } | Call::Read { .. } | Call::Forecast);
        if reply.answer.is_done() && !reads {
            loan.card.copy_from_slice(&self.model.card);
        } else if matches!(call, Call::Format { .. }) {
            self.model.card = before;
        }
        if let Some(page) = &reply.page {
            buffer.copy_from_slice(page);
        }
        if *call == Call::Start {
            let started = u8::from(reply.answer.is_done());
            loan.record.0[..RECORD].fill(started);
        }
        reply.answer
    }
}
