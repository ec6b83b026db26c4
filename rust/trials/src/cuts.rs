//! How often cuts came in each write, and what they found of the writes that
//! were not flushed.

use crate::call::{Answer, Call};
use crate::drive::{Found, Unflushed};
use model::blocks::Block;
use model::Kind;
use std::collections::BTreeSet;

/// The block writes a cut can be in: advance's kinds, in `Kind`'s order, but
/// for F, which writes none, and page-out's.
const WRITES: [&str; 6] = ["P", "D", "T", "M", "H", "page-out"];
const HEADER: usize = Kind::H as usize;
const PAGE_OUT: usize = 5;

/// What a cut has left of the block.
const REMAINS: [&str; 3] = ["old", "new", "torn"];
const OLD: usize = 0;
const NEW: usize = 1;
const TORN: usize = 2;

/// So many cuts must come with two or more unflushed writes.
const LEAST_REORDERED: u64 = 100_000;
/// Of so many unflushed writes all selections must be put down in all orders:
/// of four that is 1 + 4 + 12 + 24 + 24.
const ORDERS: [(usize, usize); 3] = [(2, 5), (3, 16), (4, 65)];

#[derive(Clone, Default)]
pub struct Cuts {
    pub all: u64,
    /// In block writes, by write and by what was left; where old and new are
    /// the same bytes, only torn ones.
    within: [[u64; 3]; 6],
    /// With two or more unflushed writes.
    reordered: u64,
    /// How many writes were unflushed, and which were put down in which order.
    orders: BTreeSet<(usize, Vec<usize>)>,
    /// Header writes of earlier calls, found old and new: without a start
    /// between, and with one.
    headers: [[u64; 2]; 2],
    /// Writes over which there was a start without a cut.
    started: [u64; 6],
}

/// The row of the write that a call has made.
pub fn row(call: &Call, answer: &Answer) -> usize {
    match (call, answer) {
        (Call::Advance, Answer::Wrote(kind, _)) => *kind as usize,
        _ => PAGE_OUT,
    }
}

/// A header is left old or new, never torn.
fn can_remain(write: usize, remains: usize) -> bool {
    write != HEADER || remains != TORN
}

/// What is left of a block; a write of the bytes that it had tells nothing.
fn remains(left: &Block, write: &Unflushed) -> Option<usize> {
    match (*left == write.old, *left == write.new) {
        (true, true) => None,
        (true, false) => Some(OLD),
        (false, true) => Some(NEW),
        (false, false) => Some(TORN),
    }
}

impl Cuts {
    pub fn count(&mut self, found: &Found) {
        self.all += 1;
        let (earlier, making) = found.writes.split_at(found.earlier);
        for write in making {
            if let Some(remains) = remains(&found.blocks[&write.block], write) {
                self.within[write.row][remains] += 1;
            }
        }
        for write in earlier {
            self.started[write.row] += u64::from(write.started);
            if write.row == HEADER {
                let left = if found.header_reached() { NEW } else { OLD };
                self.headers[usize::from(write.started)][left] += 1;
            }
        }
        let writes = found.writes.len();
        self.reordered += u64::from(writes > 1);
        if !found.torn && ORDERS.iter().any(|(of, _)| *of == writes) {
            self.orders.insert((writes, found.whole.clone()));
        }
    }

    pub fn add(&mut self, other: &Cuts) {
        self.all += other.all;
        self.reordered += other.reordered;
        self.orders.extend(other.orders.iter().cloned());
        add_all(self.within.as_flattened_mut(), other.within.as_flattened());
        add_all(
            self.headers.as_flattened_mut(),
            other.headers.as_flattened(),
        );
        add_all(&mut self.started, &other.started);
    }

    pub fn within_writes(&self) -> u64 {
        self.within.iter().flatten().sum()
    }

    fn orders_of(&self, writes: usize) -> usize {
        self.orders.iter().filter(|(of, _)| *of == writes).count()
    }

    /// What cuts must meet and did not.
    pub fn missing(&self) -> Vec<String> {
        let mut missing = self.missing_within();
        if self.reordered < LEAST_REORDERED {
            missing.push(format!(
                "{LEAST_REORDERED} cuts with two or more unflushed writes"
            ));
        }
        for (writes, all) in ORDERS {
            if self.orders_of(writes) < all {
                missing.push(format!("all {all} orders of {writes} unflushed writes"));
            }
        }
        for (headers, when) in self.headers.iter().zip(["", " after a start"]) {
            for left in [OLD, NEW].into_iter().filter(|left| headers[*left] == 0) {
                missing.push(format!("an unflushed H found {}{when}", REMAINS[left]));
            }
        }
        for (name, started) in WRITES.iter().zip(self.started) {
            if started == 0 {
                missing.push(format!("a start over an unflushed {name}, then a cut"));
            }
        }
        missing
    }

    fn missing_within(&self) -> Vec<String> {
        let mut missing = Vec::new();
        for (write, name) in WRITES.iter().enumerate() {
            for (remains, left) in REMAINS.iter().enumerate() {
                if can_remain(write, remains) && self.within[write][remains] == 0 {
                    missing.push(format!("a cut in {name} that leaves {left}"));
                }
            }
        }
        missing
    }

    /// What cuts have left of each write's block, then what they have found of
    /// several unflushed writes, of earlier headers and over starts.
    pub fn table(&self) -> String {
        let cells = WRITES.iter().zip(&self.within);
        let cells: Vec<String> = cells
            .map(|(name, left)| format!("{name} {}", named(&REMAINS, left)))
            .collect();
        let orders = ORDERS.map(|(writes, all)| {
            let seen = self.orders_of(writes);
            format!("{seen} of {all} orders of {writes}")
        });
        let [plain, started] = self.headers;
        format!(
            "  cut in {}\n  {} cuts with two or more unflushed writes: {}\n  \
             earlier H found {}, after a start {}; unflushed over a start {}\n",
            cells.join(", "),
            self.reordered,
            orders.join(", "),
            named(&REMAINS[..TORN], &plain),
            named(&REMAINS[..TORN], &started),
            named(&WRITES, &self.started)
        )
    }
}

pub fn add_all(sums: &mut [u64], more: &[u64]) {
    for (sum, more) in sums.iter_mut().zip(more) {
        *sum += more;
    }
}

/// Each name with its number.
pub fn named(names: &[&str], numbers: &[u64]) -> String {
    let cells = names.iter().zip(numbers);
    let cells: Vec<String> = cells.map(|(name, n)| format!("{name} {n}")).collect();
    cells.join(" ")
}
