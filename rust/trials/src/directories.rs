//! How often changes and reads came to each part of a directory. It is held by
//! rising frame, so that a new entry may go before all others, between or behind;
//! and pages may change in any order.

use crate::call::{Answer, Call};
use crate::cuts::{add_all, named};
use crate::doctored::form::{directories, entries, Entry};
use model::generation::Changes;
use model::Store;

/// Directories with fewer entries are not counted.
const LEAST: usize = 8;

/// What comes of a frame, by turns one that the directory has and one that it
/// has not.
const FATES: [&str; 8] = [
    "place changed in the current directory",
    "entry new to the current directory",
    "entry found in the committed directory",
    "no entry found in the committed directory",
    "entry found in the pending directory",
    "no entry found in the pending directory",
    "entry found in the current directory",
    "no entry found in the current directory",
];
const CHANGED: usize = 0;
const LOOKED_UP: usize = 2;

const PARTS: [&str; 3] = ["front", "middle", "end"];

/// Orders in which pages changed first, as many in a row.
const ORDERS: [&str; 2] = ["rising", "falling"];

/// Is the frame missing, and in which part is its entry, or would it be?
fn find(directory: &[Entry], frame: usize) -> (usize, usize) {
    let (missing, at, last) = match directory.binary_search_by_key(&frame, |entry| entry.0) {
        Ok(at) => (0, at, directory.len() - 1),
        Err(at) => (1, at, directory.len()),
    };
    match at {
        0 => (missing, 0),
        at if at < last => (missing, 1),
        _ => (missing, 2),
    }
}

/// The frames of a directory in order of first change.
pub fn in_order_of_change(changes: &Changes) -> Vec<usize> {
    let mut frames = Vec::new();
    for frame in changes.taken() {
        if !frames.contains(&frame) {
            frames.push(frame);
        }
    }
    frames
}

#[derive(Clone, Default)]
pub struct Directories {
    fates: [[u64; PARTS.len()]; FATES.len()],
    orders: [u64; ORDERS.len()],
}

impl Directories {
    fn count(&mut self, fate: usize, directory: &[Entry], frame: usize) {
        if directory.len() >= LEAST {
            let (missing, part) = find(directory, frame);
            self.fates[fate + missing][part] += 1;
        }
    }

    /// A call that was made, with the store after it; `before` is the current
    /// directory before a change.
    pub fn count_made(&mut self, call: &Call, answer: &Answer, before: &[Entry], store: &Store) {
        match call {
            Call::Read { oid, .. } if answer.is_done() => self.count_read(*oid, store),
            Call::Snapshot if answer.is_done() => self.count_snapshot(store),
            _ if before.len() >= LEAST => {
                for entry in entries(&store.current) {
                    if before.binary_search(&entry).is_err() {
                        self.count(CHANGED, before, entry.0);
                    }
                }
            }
            _ => {}
        }
    }

    /// A read looks for the page and for its pot.
    fn count_read(&mut self, oid: u32, store: &Store) {
        let place = store.geometry.place(oid);
        for (i, (_, directory)) in directories(store).iter().enumerate() {
            for frame in place.iter().flat_map(|place| [place.page, place.pot]) {
                self.count(LOOKED_UP + 2 * i, directory, frame);
            }
        }
    }

    /// The order in which pages of a generation changed first, if some of it was
    /// paged out before its snapshot.
    fn count_snapshot(&mut self, store: &Store) {
        let changes = store.pending.iter().map(|pending| &pending.changes);
        let mut pages: Vec<usize> = changes
            .filter(|changes| !changes.written.is_empty())
            .flat_map(in_order_of_change)
            .filter(|frame| store.geometry.page_at(*frame).is_some())
            .collect();
        let rising = pages.windows(LEAST).any(|row| row.is_sorted());
        pages.reverse();
        let falling = pages.windows(LEAST).any(|row| row.is_sorted());
        add_all(&mut self.orders, &[rising, falling].map(u64::from));
    }

    pub fn add(&mut self, other: &Directories) {
        add_all(self.fates.as_flattened_mut(), other.fates.as_flattened());
        add_all(&mut self.orders, &other.orders);
    }

    pub fn missing(&self) -> Vec<String> {
        let mut missing = Vec::new();
        for (fate, times) in FATES.iter().zip(self.fates) {
            let parts = PARTS.iter().zip(times).filter(|(_, times)| *times == 0);
            missing.extend(parts.map(|(part, _)| format!("{fate}: {part}")));
        }
        let orders = ORDERS.iter().zip(self.orders).filter(|(_, n)| *n == 0);
        missing.extend(orders.map(|(order, _)| format!("{LEAST} pages in {order} order")));
        missing
    }

    pub fn table(&self) -> String {
        let fates = FATES.iter().zip(&self.fates);
        let fates = fates.map(|(fate, times)| format!("  {fate}: {}\n", named(&PARTS, times)));
        let orders = named(&ORDERS, &self.orders);
        format!(
            "  in directories of {LEAST} entries or more:\n{}  \
             snapshots with {LEAST} pages changed in a row: {orders}\n",
            fates.collect::<String>(),
        )
    }
}
