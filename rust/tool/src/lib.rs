//! The tool `lane`, for people who run lanes and for technicians: `lane help` has its commands.

#![forbid(unsafe_code)]

mod arguments;
pub mod card;
mod check;
mod dump;
pub mod explain;
mod export;
mod exported;
pub mod failure;
mod format;
mod help;
mod hex;
pub mod image;
mod import;
mod making;
mod map;
mod output;
mod page;
mod progress;
pub mod started;
mod text;
pub mod verdict;

use arguments::{Arguments, Known, Shape};
use failure::Failure;
use output::Output;
use std::ffi::OsString;
use std::io::{self, Write};

struct Command {
    name: &'static str,
    help: &'static str,
    shape: Shape,
    run: fn(&Arguments) -> Result<(), Failure>,
}

const COMMANDS: [Command; 7] = [
    Command {
        name: "format",
        help: help::FORMAT,
        shape: Shape {
            words: &["IMAGE"],
            options: &[
                Known::Value("--area"),
                Known::Values("--range"),
                Known::Switch("--replace"),
                Known::Value("--promise"),
            ],
        },
        run: format::run,
    },
    Command {
        name: "check",
        help: help::CHECK,
        shape: Shape {
            words: &["IMAGE"],
            options: &[],
        },
        run: check::run,
    },
    Command {
        name: "dump",
        help: help::DUMP,
        shape: Shape {
            words: &["IMAGE"],
            options: &[],
        },
        run: dump::run,
    },
    Command {
        name: "page",
        help: help::PAGE,
        shape: Shape {
            words: &["IMAGE", "OID"],
            options: &[],
        },
        run: page::run,
    },
    Command {
        name: "export",
        help: help::EXPORT,
        shape: Shape {
            words: &["IMAGE"],
            options: &[Known::Value("--out"), Known::Switch("--progress")],
        },
        run: export::run,
    },
    Command {
        name: "import",
        help: help::IMPORT,
        shape: Shape {
            words: &["IMAGE", "FILE"],
            options: &[
                Known::Value("--area"),
                Known::Value("--counts"),
                Known::Switch("--replace"),
                Known::Value("--promise"),
                Known::Switch("--progress"),
            ],
        },
        run: import::run,
    },
    Command {
        name: "map",
        help: help::MAP,
        shape: Shape {
            words: &["IMAGE"],
            options: &[Known::Value("--out")],
        },
        run: map::run,
    },
];

/// Does what the words ask for, and gives the status to end with.
pub fn run(words: Vec<OsString>) -> u8 {
    let Err(failure) = command(&words) else {
        return 0;
    };
    let mut text = failure.text().to_string();
    if let Failure::Usage(_) = failure {
        text.push_str("\n\"lane help\" says how it is used");
    }
    for line in text.lines() {
        // Nobody is left to tell where standard error cannot be written.
        let _ = writeln!(io::stderr(), "lane: {line}");
    }
    failure.status()
}

fn command(words: &[OsString]) -> Result<(), Failure> {
    let Some((name, rest)) = words.split_first() else {
        return Err(arguments::usage("no command"));
    };
    match (name.to_str(), rest) {
        (Some("help" | "--help" | "-h"), []) => say(help::ALL),
        (Some("help"), [name]) => say(named(name)?.help),
        (Some("--version" | "-V"), []) => say(&version()),
        _ => {
            let command = named(name)?;
            let arguments = Arguments::parse(rest, &command.shape)?;
            if arguments.help {
                return say(command.help);
            }
            (command.run)(&arguments)
        }
    }
}

fn named(name: &OsString) -> Result<&'static Command, Failure> {
    let command = COMMANDS.iter().find(|command| name == command.name);
    command.ok_or_else(|| arguments::usage(format!("no command {}", name.display())))
}

fn version() -> String {
    let (tool, interface) = (env!("CARGO_PKG_VERSION"), lane::VERSION);
    format!("lane {tool}, interface {interface} of the library\n")
}

fn say(text: &str) -> Result<(), Failure> {
    let mut out = Output::standard();
    out.text(text)?;
    out.finish()
}
