//! The second part of the table: the library's own time, over a card in memory without a file, beside
//! the plain model's.

use crate::calls::{self, Order, Turn};
use crate::card::FRAMES;
use crate::clock::Clock;
use crate::controller::Controller;
use crate::modelled::Modelled;
use crate::proved::Proved;
use crate::rounds::Rounds;
use crate::shape::{Shape, FEW, FULL, FULL_CHANGES};
use crate::subject::{first_pages, Plan, Subject};
use crate::table::Table;
use crate::work::{self, Work};
use lane::BLOCK;
use model::Kind;
use saved::Unit;

const COLUMNS: [&str; 2] = ["library", "model"];
const RATIOS: [&str; 1] = ["/floor"];

type Own = Subject<Controller>;
type Measure = fn(&Clock, &mut Own, usize) -> f64;

pub struct OwnTime {
    subjects: Vec<Own>,
    floor: f64,
}

impl OwnTime {
    pub fn new(rounds: &Rounds) -> OwnTime {
        let pages = first_pages();
        let controllers = [
            Controller::new(Box::new(Proved::new()), &pages),
            Controller::new(Box::new(Modelled::new()), &pages),
        ];
        // A copy is short: many samples, lest all of them fall into one slow moment.
        let samples = 100 * rounds.pace.samples;
        let floors = (0..rounds.pace.rounds).map(|_| calls::floor(&rounds.clock, samples));
        OwnTime {
            subjects: controllers.map(|c| Subject::new(Box::new(c))).into(),
            floor: floors.fold(f64::INFINITY, f64::min),
        }
    }

    pub fn measure(&mut self, rounds: &Rounds, table: &mut Table) {
        table.fact(
            "floor",
            format!("a copy of a 512-byte block takes {:.1} ns", self.floor),
        );
        table.group("ns a call", Unit::Nanoseconds, &COLUMNS, &RATIOS);
        self.calls(rounds, table);
        self.advances(rounds, table);
        self.commits(rounds, table);
        self.memory(table);
        self.subjects.iter_mut().for_each(Subject::verify_all);
        self.cards_agree();
    }

    /// A row; the floor is that of so many copies.
    fn row(
        &mut self,
        rounds: &Rounds,
        table: &mut Table,
        label: &str,
        copies: usize,
        measure: impl Fn(&Clock, &mut Own) -> f64,
    ) {
        let found = rounds.lowest(&mut self.subjects, measure);
        let ratio = found[0] / (self.floor * copies as f64);
        let cells = found.into_iter().map(Some).collect();
        table.row(label, cells, &[Some(ratio)]);
    }

    /// A row for each number of entries.
    fn shape_rows(
        &mut self,
        rounds: &Rounds,
        table: &mut Table,
        call: &str,
        measure: fn(&Clock, &mut Own, Shape, usize) -> f64,
    ) {
        let n = rounds.pace.samples;
        for shape in [FEW, FULL, FULL_CHANGES] {
            let label = format!("{call}, entries {}", shape.name());
            self.row(rounds, table, &label, 1, |c, s| measure(c, s, shape, n));
        }
    }

    fn calls(&mut self, rounds: &Rounds, table: &mut Table) {
        let n = rounds.pace.samples;
        self.shape_rows(rounds, table, "key", calls::key);
        self.shape_rows(rounds, table, "read at home", calls::read_home);
        self.shape_rows(rounds, table, "read waiting", calls::read_waiting);
        self.shape_rows(rounds, table, "write waiting", calls::write_waiting);
        for (label, turn) in [
            ("write, first of a generation", Turn::First),
            ("write, again", Turn::Again),
        ] {
            self.row(rounds, table, label, 1, |c, s| calls::write(c, s, turn, n));
        }
        let rest: [(&str, Measure); 4] = [
            ("write, fresh page (and its pot)", calls::write_fresh),
            ("rescind", calls::rescind),
            ("page-out", calls::page_out),
            ("snapshot of 32 pages", calls::snapshot),
        ];
        for (label, call) in rest {
            self.row(rounds, table, label, 1, |c, s| call(c, s, n));
        }
        for entries in [251, 1] {
            let label = format!("start, entries {entries}");
            self.row(rounds, table, &label, 1, |c, s| {
                calls::start(c, s, entries, n)
            });
        }
    }

    fn advances(&mut self, rounds: &Rounds, table: &mut Table) {
        let n = rounds.pace.samples;
        for pages in [1, 32, 251] {
            for kind in [Kind::P, Kind::D, Kind::T, Kind::F, Kind::H, Kind::M] {
                let label = format!("advance {kind:?}, commit of {pages}");
                self.row(rounds, table, &label, 1, |c, s| {
                    calls::advance(c, s, kind, pages, Order::Spread, n)
                });
            }
        }
        for order in [Order::Rising, Order::Random, Order::Falling] {
            for kind in [Kind::D, Kind::H] {
                let label = format!("advance {kind:?}, 251 changed {}", order.name());
                self.row(rounds, table, &label, 1, |c, s| {
                    calls::advance(c, s, kind, 251, order, n)
                });
            }
        }
    }

    /// Up to the flush after the header, from a store that is all home, and with the way home.
    fn commits(&mut self, rounds: &Rounds, table: &mut Table) {
        table.group("ns a commit", Unit::Nanoseconds, &COLUMNS, &RATIOS);
        let (commits, samples) = (rounds.pace.commits(), rounds.pace.samples);
        for pages in [1, 8, 32] {
            let plan = Plan {
                pages,
                neighbours: false,
            };
            for (work, how, n) in [
                (Work::Commit(plan), "", commits),
                (Work::InARow(plan), ", in a row", samples),
            ] {
                let label = format!("commit of {pages}{how}");
                self.row(rounds, table, &label, pages, |c, s| {
                    work::time(c, s, work, n)
                });
            }
        }
        self.subjects.iter_mut().for_each(Subject::verify);
    }

    fn memory(&self, table: &mut Table) {
        let library = |bytes: usize| vec![Some(bytes as f64), None];
        table.group("bytes of memory", Unit::Bytes, &COLUMNS, &[]);
        table.row("record", library(lane::Store::RECORD), &[]);
        table.row("memory lent", library(FRAMES * BLOCK), &[]);
    }

    /// Library and model have made the same calls, so that their cards are the same.
    fn cards_agree(&self) {
        let [library, model] = [0, 1].map(|i| self.subjects[i].store.calls.card());
        assert!(library == model, "library and model differ in cards");
    }
}
