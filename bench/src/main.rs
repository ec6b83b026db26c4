//! One table: the ready layers in Rust and C, LMDB and SQLite, on one machine in one run; then the
//! library's own time.

#![deny(clippy::undocumented_unsafe_blocks)]

mod calls;
mod card;
mod clock;
mod cold;
mod controller;
mod counted;
mod files;
mod lmdb;
mod machine;
mod modelled;
mod own;
mod proved;
mod ready;
mod ready_c;
mod rounds;
mod shape;
mod singles;
mod sqlite;
mod store;
mod subject;
mod table;
mod work;

use clock::Clock;
use files::Files;
use lane::file::{Options, Promise};
use machine::Place;
use own::OwnTime;
use rounds::{Pace, Rounds};
use std::env;
use std::fs;
use std::io;
use std::path::{Path, PathBuf};
use std::process::{self, ExitCode};
use table::Table;

/// Where files go if no folder is named: to a memory file system, so that no disk is measured.
const MEMORY_FILES: &str = "/dev/shm";

/// A folder for the stores' files, removed at the end.
struct Scratch(PathBuf);

impl Scratch {
    fn new(within: &Path) -> io::Result<Scratch> {
        let path = within.join(format!("lane-bench-{}", process::id()));
        fs::create_dir(&path)?;
        Ok(Scratch(path))
    }
}

impl Drop for Scratch {
    fn drop(&mut self) {
        let _ = fs::remove_dir_all(&self.0);
    }
}

/// What is asked for.
struct Asked {
    pace: Pace,
    /// The library's own time alone.
    library: bool,
    folder: PathBuf,
    /// Where the figures are saved.
    save: Option<PathBuf>,
}

fn asked() -> Option<Asked> {
    let mut asked = Asked {
        pace: Pace::FULL,
        library: false,
        folder: MEMORY_FILES.into(),
        save: None,
    };
    let mut words = env::args().skip(1);
    while let Some(word) = words.next() {
        match word.as_str() {
            "--quick" => asked.pace = Pace::QUICK,
            "--library" => asked.library = true,
            "--save" => asked.save = Some(words.next()?.into()),
            option if option.starts_with('-') => return None,
            folder => asked.folder = folder.into(),
        }
    }
    Some(asked)
}

/// What the ready layer says where it is asked for the promise at a power cut.
fn promise(folder: &Path) -> String {
    let card = folder.join("asked.card");
    match Options::new().create(&card, card::AREA, &card::RANGES) {
        Ok(_) => "kept".into(),
        Err(why) => why.to_string(),
    }
}

fn head(table: &mut Table, asked: &Asked, place: &Place, scratch: &Path) {
    let (opened, kind) = match place.is_disk() {
        true => ("VOUCHED", "disk"),
        false => ("KILL", "memory"),
    };
    table.fact("machine", machine::describe());
    table.fact("load", machine::load());
    table.fact("place", kind.into());
    table.fact("files", place.describe());
    let answer = promise(scratch);
    table.fact(
        "promise",
        format!("lanes are opened {opened}; ASKED answers: {answer}"),
    );
    let (lmdb, sqlite) = (lmdb::version(), sqlite::version());
    table.fact("peers", format!("LMDB {lmdb}, SQLite {sqlite}"));
    table.fact(
        "figures",
        format!(
            "the lowest of {} rounds, which take the stores in turn; \
             a round is the median of {} samples or more, of opens {}",
            asked.pace.rounds,
            asked.pace.samples,
            asked.pace.opens()
        ),
    );
}

/// Says of which file or folder an error is.
fn named<T>(path: &Path, outcome: io::Result<T>) -> Result<T, String> {
    outcome.map_err(|e| format!("{}: {e}", path.display()))
}

fn measure(asked: &Asked) -> io::Result<Table> {
    let folder = asked.folder.canonicalize()?;
    let scratch = Scratch::new(&folder)?;
    let place = Place::of(&folder)?;
    let promise = match place.is_disk() {
        true => Promise::Vouched,
        false => Promise::Kill,
    };
    let rounds = Rounds {
        clock: Clock::new(),
        pace: asked.pace,
    };
    let mut table = Table::new();
    head(&mut table, asked, &place, &scratch.0);
    if !asked.library {
        Files::new(&scratch.0, place.is_disk(), promise).measure(&rounds, &mut table);
    }
    println!("\nThe library's own time: its card is in memory, without a file.");
    OwnTime::new(&rounds).measure(&rounds, &mut table);
    print!("\n{}", include_str!("notes.txt"));
    Ok(table)
}

/// Measures, and saves the figures in a file that is seen to be writable before.
fn run(asked: &Asked) -> Result<(), String> {
    let measured = || named(&asked.folder, measure(asked));
    match &asked.save {
        Some(file) => {
            named(file, fs::write(file, ""))?;
            named(file, fs::write(file, measured()?.run().to_string()))
        }
        None => measured().map(|_| ()),
    }
}

fn main() -> ExitCode {
    let Some(asked) = asked() else {
        eprintln!("usage: bench/run [--quick] [--library] [--save FILE] [FOLDER]");
        return ExitCode::from(2);
    };
    match run(&asked) {
        Ok(()) => ExitCode::SUCCESS,
        Err(why) => {
            eprintln!("bench/run: {why}");
            ExitCode::from(2)
        }
    }
}
