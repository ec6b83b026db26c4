//! The first part of the table: the ready layers, LMDB and SQLite, each with its files in one folder.

use crate::lmdb::Lmdb;
use crate::ready::Ready;
use crate::ready_c::ReadyC;
use crate::rounds::Rounds;
use crate::singles::{self, Turn};
use crate::sqlite::{Journal, Sqlite};
use crate::store::PageStore;
use crate::subject::{first_pages, Plan, Subject};
use crate::table::{Ratio, Table};
use crate::work::{self, Stop, Work};
use lane::file::Promise;
use saved::Unit;
use std::fs;
use std::path::Path;

const COLUMNS: [&str; 5] = saved::STORES;
const RATIOS: [&str; 2] = ["Rust/LMDB", "C/LMDB"];
const LANES: usize = saved::LANES;
const LMDB: usize = saved::LMDB;

const PLANS: [Plan; 5] = [
    plan(1, false),
    plan(8, false),
    plan(32, false),
    plan(8, true),
    plan(32, true),
];
const FAR_APART: Plan = PLANS[2];
const NEIGHBOURS: Plan = PLANS[4];

/// Groups of counts, as `work::counts` has them.
const COUNTS: [(&str, Unit); 4] = [
    ("flushes", Unit::Count),
    ("write calls", Unit::Count),
    ("writes in these calls", Unit::Count),
    ("bytes", Unit::Bytes),
];

type File = Subject<dyn PageStore>;

pub struct Files {
    subjects: Vec<File>,
    /// In memory there is no power cut to come back from.
    disk: bool,
}

const fn plan(pages: usize, neighbours: bool) -> Plan {
    Plan { pages, neighbours }
}

fn pages(plan: Plan) -> String {
    match (plan.pages, plan.neighbours) {
        (1, _) => "1 page".into(),
        (n, false) => format!("{n} pages far apart"),
        (n, true) => format!("{n} neighbouring pages"),
    }
}

/// Within a group of its own.
fn label(work: Work) -> String {
    match work {
        Work::Commit(plan) | Work::InARow(plan) | Work::Settle(plan) => pages(plan),
        Work::Open(_, stop) | Work::First(_, stop) => match stop {
            Stop::Kill => "after a kill".into(),
            Stop::PowerCut => "after a power cut".into(),
        },
    }
}

/// Among others.
fn full_label(work: Work) -> String {
    let label = label(work);
    match work {
        Work::Commit(_) => label,
        Work::InARow(_) => format!("{label}, in a row"),
        Work::Settle(_) => format!("settle, {label}"),
        Work::Open(..) => format!("open {label}"),
        Work::First(..) => format!("first commit {label}"),
    }
}

/// Of the lanes alone where the others have nothing to do.
fn of_lanes(work: Work) -> bool {
    matches!(work, Work::Settle(_))
}

fn to_lmdb(cells: &[Option<f64>]) -> [Ratio; LANES] {
    std::array::from_fn(|lane| Some(cells[lane]? / cells[LMDB].filter(|n| *n > 0.0)?))
}

impl Files {
    pub fn new(folder: &Path, disk: bool, promise: Promise) -> Files {
        let pages = first_pages();
        let at = |name: &str| folder.join(name);
        let stores: [Box<dyn PageStore>; 5] = [
            Box::new(Ready::create(&at("rust.card"), promise, &pages)),
            Box::new(ReadyC::create(&at("c.card"), promise, &pages)),
            Box::new(Lmdb::create(&at("lmdb"), &pages)),
            Box::new(Sqlite::create(&at("wal"), Journal::Wal, &pages)),
            Box::new(Sqlite::create(&at("delete"), Journal::Delete, &pages)),
        ];
        Files {
            subjects: stores.into_iter().map(Subject::new).collect(),
            disk,
        }
    }

    pub fn measure(&mut self, rounds: &Rounds, table: &mut Table) {
        self.commits(rounds, table);
        self.settles(rounds, table);
        self.opens(rounds, table);
        self.singles(rounds, table);
        self.counts(rounds, table);
        self.subjects.iter_mut().for_each(Subject::verify_all);
        self.cards_agree();
    }

    fn commits(&mut self, rounds: &Rounds, table: &mut Table) {
        let micros = Unit::Microseconds;
        table.group(saved::COMMIT, micros, &COLUMNS, &RATIOS);
        for work in PLANS.map(Work::Commit) {
            self.times(rounds, table, work, rounds.pace.commits());
        }
        table.group(saved::IN_A_ROW, micros, &COLUMNS, &RATIOS);
        for work in PLANS.map(Work::InARow) {
            self.times(rounds, table, work, rounds.pace.samples);
        }
    }

    fn settles(&mut self, rounds: &Rounds, table: &mut Table) {
        table.group(
            "us to settle, in idle time",
            Unit::Microseconds,
            &COLUMNS,
            &RATIOS,
        );
        for plan in [FAR_APART, NEIGHBOURS] {
            self.times(rounds, table, Work::Settle(plan), rounds.pace.samples);
        }
    }

    fn opens(&mut self, rounds: &Rounds, table: &mut Table) {
        let (micros, n) = (Unit::Microseconds, rounds.pace.opens());
        table.group(saved::OPEN, micros, &COLUMNS, &RATIOS);
        for stop in self.stops() {
            self.times(rounds, table, Work::Open(FAR_APART, *stop), n);
        }
        table.group(saved::FIRST, micros, &COLUMNS, &RATIOS);
        for stop in self.stops() {
            self.times(rounds, table, Work::First(FAR_APART, *stop), n);
        }
    }

    fn stops(&self) -> &'static [Stop] {
        match self.disk {
            true => &[Stop::Kill, Stop::PowerCut],
            false => &[Stop::Kill],
        }
    }

    fn singles(&mut self, rounds: &Rounds, table: &mut Table) {
        let n = rounds.pace.samples;
        table.group("ns a page", Unit::Nanoseconds, &COLUMNS, &RATIOS);
        self.row(rounds, table, "read", COLUMNS.len(), |clock, s| {
            singles::read(clock, s, n)
        });
        for (label, turn) in [("write, first", Turn::First), ("write, again", Turn::Again)] {
            self.row(rounds, table, label, COLUMNS.len(), |clock, s| {
                singles::write(clock, s, turn, n)
            });
        }
    }

    fn times(&mut self, rounds: &Rounds, table: &mut Table, work: Work, samples: usize) {
        let columns = if of_lanes(work) { LANES } else { COLUMNS.len() };
        self.row(rounds, table, &label(work), columns, |clock, subject| {
            work::time(clock, subject, work, samples)
        });
    }

    /// A row of the first columns. What is committed for it is read back.
    fn row(
        &mut self,
        rounds: &Rounds,
        table: &mut Table,
        label: &str,
        columns: usize,
        measure: impl Fn(&crate::clock::Clock, &mut File) -> f64,
    ) {
        let subjects = &mut self.subjects[..columns];
        subjects.iter_mut().for_each(Subject::bring_into_use);
        let mut cells: Vec<_> = rounds
            .lowest(subjects, measure)
            .into_iter()
            .map(Some)
            .collect();
        subjects.iter_mut().for_each(Subject::verify);
        cells.resize(COLUMNS.len(), None);
        let ratios = to_lmdb(&cells);
        table.row(label, cells, &ratios);
    }

    /// What each piece of work asks the system for.
    fn counts(&mut self, rounds: &Rounds, table: &mut Table) {
        let commits = PLANS.into_iter().map(Work::Commit);
        let in_a_row = PLANS.into_iter().map(Work::InARow);
        let rest = [
            Work::Settle(FAR_APART),
            Work::Settle(NEIGHBOURS),
            Work::Open(FAR_APART, Stop::Kill),
        ];
        let works: Vec<Work> = commits.chain(in_a_row).chain(rest).collect();
        let found: Vec<Vec<_>> = works
            .iter()
            .map(|work| self.counted(*work, rounds))
            .collect();
        for (i, (name, unit)) in COUNTS.into_iter().enumerate() {
            table.group(name, unit, &COLUMNS, &RATIOS);
            for (work, stores) in works.iter().zip(&found) {
                let cells: Vec<_> = stores.iter().map(|s| s.map(|counts| counts[i])).collect();
                let ratios = to_lmdb(&cells);
                table.row(&full_label(*work), cells, &ratios);
            }
        }
    }

    fn counted(&mut self, work: Work, rounds: &Rounds) -> Vec<Option<[f64; 4]>> {
        let samples = match work {
            Work::Open(..) => rounds.pace.opens(),
            _ => rounds.pace.samples,
        };
        let columns = if of_lanes(work) { LANES } else { COLUMNS.len() };
        let some = self.subjects[..columns].iter_mut();
        let mut found: Vec<_> = some
            .map(|subject| Some(work::counts(subject, work, samples)))
            .collect();
        found.resize(COLUMNS.len(), None);
        found
    }

    /// Both layers have made the same calls, so that their cards are the same.
    fn cards_agree(&self) {
        let [a, b] = [0, 1].map(|lane| {
            let files = self.subjects[lane].store.files();
            fs::read(&files[0]).expect("a card's file")
        });
        assert!(a == b, "the layers in Rust and in C differ in cards");
    }
}
