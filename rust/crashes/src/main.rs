//! Crash trials of the ready layers, in Rust and in C.
//!
//! A day is a list of calls on a layer whose drive records every write and every flush. It begins
//! with a create, or on a card that was formatted over any bytes. At every point of it the cards are
//! made that a cut may leave. Each is opened by the layer again, and every page and count is held to
//! the snapshot that the card's own header names. That must not be older than the last commit that
//! was answered done. What a layer foretells is held to what it then makes. Drives that fail are tried
//! too.
//!
//! The layer in C is the object code that is shipped, over a system of this crate's own.

#![deny(unsafe_code)]
#![deny(clippy::undocumented_unsafe_blocks)]

mod block;
mod cuts;
mod day;
mod doubt;
mod failures;
mod foretold;
mod layer;
mod linked;
mod opened;
mod ready;
mod recorded;
#[path = "../../trials/src/rng.rs"]
mod rng;
mod shape;
#[allow(unsafe_code)]
mod shim;
#[cfg(test)]
mod slips;
mod system;
mod tables;
mod tally;
mod trial;
mod work;
mod wrong;

use std::process::ExitCode;
use std::time::Instant;
use tally::{spaced, table};
use work::Both;

/// Writes that the layer in C must have begun while others were under way.
const LEAST_TOGETHER: u64 = 4_000;

fn seed() -> Option<u64> {
    let words: Vec<String> = std::env::args().skip(1).collect();
    match words.as_slice() {
        [] => Some(1),
        [option, seed] if option == "--seed" => seed.parse().ok(),
        _ => None,
    }
}

/// A run that did not reach everything has not shown enough.
fn missing(both: &Both) -> Vec<String> {
    let mut missing = Vec::new();
    for (layer, run) in [("Rust", &both.rust), ("C", &both.c)] {
        let short = run.tally.missing();
        missing.extend(short.iter().map(|what| format!("{what} in {layer}")));
    }
    if system::with(|system| system.together()) < LEAST_TOGETHER {
        missing.push(format!("{LEAST_TOGETHER} writes begun beside others in C"));
    }
    let unlike = both.unlike.iter();
    missing.extend(unlike.map(|seed| format!("long day {seed} alike in Rust and C")));
    missing
}

fn main() -> ExitCode {
    let Some(seed) = seed() else {
        eprintln!("option: --seed NUMBER");
        return ExitCode::FAILURE;
    };
    let begun = Instant::now();
    let mut both = Both::new(seed);
    let outcome = both.work();
    println!("seed {seed}");
    print!("{}", table(&both.rust.tally, &both.c.tally));
    println!(
        "{} long days recorded and foretold alike in Rust and C; {} writes begun beside others \
         in C; {:.1} s",
        both.alike,
        spaced(system::with(|system| system.together())),
        begun.elapsed().as_secs_f64()
    );
    if let Err(wrong) = outcome {
        println!("{wrong}\ncrashes: failed");
        return ExitCode::FAILURE;
    }
    let missing = missing(&both);
    if !missing.is_empty() {
        println!("crashes: failed, not reached: {}", missing.join(", "));
        return ExitCode::FAILURE;
    }
    println!("crashes: ok");
    ExitCode::SUCCESS
}
