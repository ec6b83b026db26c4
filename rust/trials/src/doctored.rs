//! Records and cards that no call made.

pub mod broken;
pub mod cards;
pub mod form;
pub mod records;

use crate::call::Call;
use crate::cards::Size;
use crate::library::Library;
use crate::list::List;
use crate::mix;
use crate::rng::Rng;
use crate::run::{run_steps, Failure};
use crate::tally::Tally;
use crate::trial::Trial;
use model::blocks::ENTRIES;
use model::generation::Committed;
use model::geometry::BLOCK;
use model::{Kind, Model, Phase, Store};

/// Which states of the store are doctored.
#[derive(Clone, Copy)]
pub struct State {
    pub size: Size,
    committed: bool,
    due: Option<Kind>,
    pending: bool,
    owed: bool,
    passing: bool,
}

/// Each thing that advance can have due, while a current frame waits: with
/// nothing committed yet, with a committed generation, and with a pending one
/// too. Then with pages that M passes over; and with directories of several
/// blocks, the committed one or the two others, where none need wait.
pub const STATES: [State; 26] = [
    state(None, false),
    state(Some(Kind::M), false),
    state(Some(Kind::P), true),
    state(Some(Kind::D), true),
    state(Some(Kind::T), true),
    state(Some(Kind::M), true),
    state(Some(Kind::F), true),
    state(Some(Kind::H), true),
    state(Some(Kind::F), false).owed(),
    state(Some(Kind::F), true).owed(),
    state(None, false).fresh(),
    state(Some(Kind::P), true).fresh(),
    state(Some(Kind::D), true).fresh(),
    state(Some(Kind::T), true).fresh(),
    state(Some(Kind::F), true).fresh(),
    state(Some(Kind::H), true).fresh(),
    state(Some(Kind::F), false).owed().fresh(),
    state(None, false).passing(),
    state(Some(Kind::M), false).passing(),
    state(Some(Kind::P), true).passing(),
    state(Some(Kind::M), true).passing(),
    state(Some(Kind::F), true).passing(),
    state(Some(Kind::H), true).passing(),
    state(Some(Kind::F), true).owed().passing(),
    state(Some(Kind::M), false).wide(),
    state(Some(Kind::D), true).wide().fresh(),
];

const fn state(due: Option<Kind>, pending: bool) -> State {
    State {
        size: Size::Small,
        committed: true,
        due,
        pending,
        owed: false,
        passing: false,
    }
}

impl State {
    /// At commit 0.
    const fn fresh(self) -> State {
        State {
            committed: false,
            ..self
        }
    }

    /// Before the flush that is first of all after a header write or a start.
    const fn owed(self) -> State {
        State { owed: true, ..self }
    }

    /// With pages that M passes over among the entries that are not counted as
    /// migrated; before H all are.
    const fn passing(self) -> State {
        State {
            passing: true,
            ..self
        }
    }

    const fn wide(self) -> State {
        State {
            size: Size::Wide,
            ..self
        }
    }

    fn passes(&self, model: &Model, committed: &Committed) -> bool {
        let counted = match self.due {
            Some(Kind::H) => 0,
            _ => committed.migrated,
        };
        let over = model.passed_over();
        let mut left = committed.entries.iter().skip(counted);
        left.any(|entry| over.contains(&entry.0))
    }

    fn is(&self, model: &Model) -> bool {
        let Some(store) = &model.store else {
            return false;
        };
        let committed = store.committed.as_ref();
        let entries = committed.map(|c| c.entries.len());
        let special = match self.size {
            Size::Wide => is_wide(store) && store.geometry.blocks < 500,
            _ => !store.current.waiting.is_empty(),
        };
        special
            && entries.is_some() == self.committed
            && store.pending.is_some() == self.pending
            && (store.phase == Phase::Owed) == self.owed
            && model.due() == self.due
            && (!self.passing || committed.is_some_and(|c| self.passes(model, c)))
    }
}

/// Has it directories of several blocks?
fn is_wide(store: &Store) -> bool {
    let e = match (&store.pending, &store.committed) {
        (Some(pending), _) => pending.changes.e().min(store.current.e()),
        (None, Some(committed)) => committed.entries.len(),
        (None, None) => 0,
    };
    e > ENTRIES
}

/// How a part of a run failed.
#[derive(Debug)]
pub enum Failed {
    /// A list fails, with nothing doctored but what is in it.
    List(Box<List>, Failure),
    /// What a doctored record or card has shown.
    Doctored(String),
    /// The trial itself has panicked.
    Panic(String),
}

impl From<String> for Failed {
    fn from(what: String) -> Failed {
        Failed::Doctored(what)
    }
}

/// Runs random lists until one comes into that state, and says what then goes
/// on with the trial.
pub fn in_state<L: Library>(
    library: &mut L,
    tally: &mut Tally,
    state: State,
    rng: &mut Rng,
    go_on: impl FnOnce(&mut Trial<'_, L, Model>) -> Result<(), String>,
) -> Result<(), Failed> {
    loop {
        let whole = mix::list_of_size(Rng::new(rng.next()), state.size);
        let begun = List {
            steps: Vec::new(),
            ..whole.clone()
        };
        let model = Model::new(Vec::new());
        let mut trial = match run_steps(library, model, &begun, tally) {
            Ok(trial) => trial,
            Err(failure) => return Err(Failed::List(Box::new(begun), failure)),
        };
        for (i, step) in whole.steps.iter().enumerate() {
            if let Err(what) = trial.step(step) {
                let failure = Failure { step: i + 1, what };
                return Err(Failed::List(Box::new(whole), failure));
            }
            if state.is(&trial.reference) {
                return Ok(go_on(&mut trial)?);
            }
        }
    }
}

/// The calls that are lent a record, with arguments that are right.
pub fn calls_on(oid: u32, count: u32) -> Vec<Call> {
    let length = BLOCK;
    let write = Call::Write {
        oid,
        count,
        at: 3,
        length: 5,
        fill: 1,
    };
    vec![
        Call::Key { oid },
        Call::Read { oid, count, length },
        write,
        Call::Rescind { oid, count },
        Call::Snapshot,
        Call::PageOut,
        Call::Advance,
        Call::Forecast,
    ]
}
