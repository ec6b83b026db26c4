//! `lane`: makes cards, checks, shows, exports, imports and draws them. `lane help` says how.

#![forbid(unsafe_code)]

use std::process::ExitCode;

fn main() -> ExitCode {
    ExitCode::from(tool::run(std::env::args_os().skip(1).collect()))
}
