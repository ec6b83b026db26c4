//! Trials of the proved library: doctored records and cards, and random lists
//! of calls and cuts against the model and the book.

mod borders;
mod call;
mod cards;
mod cuts;
mod directories;
mod doctored;
mod drive;
mod empties;
mod forecasts;
mod foretold;
mod library;
mod limits;
mod list;
mod mix;
mod parts;
mod reference;
mod rng;
mod run;
mod shrink;
mod stock;
mod tally;
#[cfg(test)]
mod tests;
mod trial;

use doctored::Failed;
use list::List;
use parts::{run_list, work, DOCTORED};
use std::process::ExitCode;
use std::time::Instant;
use tally::Tally;

/// What a run without options must reach. The cuts are those in block writes.
const LEAST_CALLS: u64 = 1_000_000;
const LEAST_CUTS: u64 = 50_000;

struct Options {
    seed: u64,
    lists: usize,
    /// Only this part of the run, to see a failure again.
    part: Option<usize>,
}

const DEFAULT: Options = Options {
    seed: 1,
    lists: 8600,
    part: None,
};

fn options() -> Option<Options> {
    let mut options = DEFAULT;
    let mut words = std::env::args().skip(1);
    while let Some(word) = words.next() {
        let value = words.next()?;
        match word.as_str() {
            "--seed" => options.seed = value.parse().ok()?,
            "--lists" => options.lists = value.parse().ok()?,
            "--part" => options.part = Some(value.parse().ok()?),
            _ => return None,
        }
    }
    Some(options)
}

/// Prints a list that failed, made short.
fn print_list(list: List) {
    let mut fails = |list: &List| run_list(list, &mut Tally::default()).is_err();
    let short = shrink::shrink(list, &mut fails);
    print!("{short}");
    match run_list(&short, &mut Tally::default()) {
        Err(failure) => println!("{failure}"),
        Ok(()) => println!("the list does not fail each time"),
    }
}

fn main() -> ExitCode {
    let Some(options) = options() else {
        eprintln!("options: --seed NUMBER, --lists NUMBER, --part NUMBER");
        return ExitCode::FAILURE;
    };
    let begun = Instant::now();
    let parts = match options.part {
        Some(part) => part..part + 1,
        None => 0..DOCTORED + options.lists,
    };
    let seen = work(options.seed, parts);
    let mut lists = Tally::default();
    let mut doctored = Tally::default();
    for one in &seen {
        lists.add(&one.lists);
        doctored.add(&one.doctored);
    }
    print_summary(&options, &lists, &doctored, begun);
    let failed = seen.into_iter().filter_map(|one| one.failed);
    let first = failed.min_by_key(|(number, _)| *number);
    if let Some((number, failed)) = first {
        println!("failed with --seed {} --part {number}:", options.seed);
        match failed {
            Failed::List(list, failure) => {
                println!("{failure}; the list made short:");
                print_list(*list);
            }
            Failed::Doctored(what) => println!("{what}"),
            Failed::Panic(what) => println!("panicked: {what}"),
        }
        println!("trials: failed");
        return ExitCode::FAILURE;
    }
    verdict(&options, &lists, &doctored)
}

fn print_summary(options: &Options, lists: &Tally, doctored: &Tally, begun: Instant) {
    println!(
        "seed {}: {} lists, {} calls, {} cuts, {} of them in block writes, {} looks at pages",
        options.seed,
        lists.lists,
        lists.calls(),
        lists.cuts.all,
        lists.cuts.within_writes(),
        lists.looks
    );
    let (limits, cuts) = (lists.limits.table(), lists.cuts.table());
    let (directories, empties) = (lists.directories.table(), lists.empties.lists_table());
    let borders = lists.borders.table();
    print!(
        "{}{borders}{limits}{cuts}{directories}{empties}",
        lists.table()
    );
    print!("{}", lists.forecasts.lists_table());
    println!(
        "{} doctored records, {} sentences of question 2 broken, {} doctored cards, \
         {} calls on them",
        doctored.doctored_records,
        doctored.broken.len(),
        doctored.doctored_cards,
        doctored.calls()
    );
    let empties = doctored.empties.doctored_table();
    let forecasts = doctored.forecasts.doctored_table();
    print!("{}{empties}{forecasts}", doctored.table());
    println!("{:.1} s", begun.elapsed().as_secs_f64());
}

/// A run that did not reach everything has not shown enough.
fn verdict(options: &Options, lists: &Tally, doctored: &Tally) -> ExitCode {
    let mut short = Vec::new();
    if options.lists >= DEFAULT.lists && options.part.is_none() {
        short.extend(lists.missing_from_lists());
        short.extend(doctored.missing_from_doctored());
        if lists.calls() < LEAST_CALLS || lists.cuts.within_writes() < LEAST_CUTS {
            short.push("fewer calls or cuts than wanted".to_string());
        }
    }
    if short.is_empty() {
        println!("trials: ok");
        return ExitCode::SUCCESS;
    }
    println!("trials: failed, never seen: {}", short.join(", "));
    ExitCode::FAILURE
}
