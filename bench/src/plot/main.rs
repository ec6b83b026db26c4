//! Draws runs that were saved: commits and opens of every store, in memory and on a disk.

mod chart;
mod joined;
mod svg;

use chart::Panel;
use joined::Joined;
use saved::Run;
use std::env;
use std::fs;
use std::process::ExitCode;

/// Each kind of place has a panel.
const PLACES: [(&str, &str); 2] = [("memory", "Files in memory"), ("disk", "Files on a disk")];

fn read(path: &str) -> Result<Run, String> {
    let text = fs::read_to_string(path).map_err(|e| format!("{path}: {e}"))?;
    text.parse().map_err(|e| format!("{path}: {e}"))
}

fn panels(runs: &[Run]) -> Result<Vec<Panel>, String> {
    let of = |place: &str| -> Vec<&Run> {
        let some = runs.iter().filter(|run| run.fact("place") == Some(place));
        some.collect()
    };
    let there = PLACES.iter().filter(|(place, _)| !of(place).is_empty());
    there
        .map(|(place, title)| {
            let joined = Joined::new(&of(place))?;
            Ok(Panel { title, joined })
        })
        .collect()
}

fn draw(out: &str, files: &[String]) -> Result<(), String> {
    let runs: Vec<Run> = files.iter().map(|f| read(f)).collect::<Result<_, _>>()?;
    let panels = panels(&runs)?;
    if panels.is_empty() {
        return Err("no run that says its place".into());
    }
    fs::write(out, chart::draw(&panels)).map_err(|e| format!("{out}: {e}"))
}

fn main() -> ExitCode {
    let words: Vec<String> = env::args().skip(1).collect();
    let [out, files @ ..] = &words[..] else {
        eprintln!("usage: bench/run --plot OUT.svg FILE...");
        return ExitCode::from(2);
    };
    match draw(out, files) {
        Ok(()) => ExitCode::SUCCESS,
        Err(why) => {
            eprintln!("bench/run: {why}");
            ExitCode::from(2)
        }
    }
}
