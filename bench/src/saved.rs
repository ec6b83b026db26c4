//! A run's figures in a plain form, to be kept and to be drawn: one thing a line, its parts set off
//! by tabs.

use std::fmt::{self, Display};
use std::str::FromStr;

/// The columns of stores with files: the ready layers first.
pub const STORES: [&str; 5] = ["Rust", "C", "LMDB", "WAL", "DEL"];
pub const LANES: usize = 2;
pub const LMDB: usize = 2;

/// Groups that are drawn.
pub const COMMIT: &str = "us a durable commit";
pub const IN_A_ROW: &str = "us a durable commit, in a row";
pub const OPEN: &str = "us to open, up to the first page";
pub const FIRST: &str = "us the first commit after it";

/// Digits in groups of three.
pub fn grouped(n: f64) -> String {
    let digits = format!("{n:.0}");
    let mut out = String::new();
    for (i, c) in digits.chars().enumerate() {
        if i > 0 && (digits.len() - i) % 3 == 0 {
            out.push(',');
        }
        out.push(c);
    }
    out
}

/// What the figures of a group are. Times are kept in nanoseconds.
#[derive(Clone, Copy, Debug, PartialEq)]
pub enum Unit {
    Microseconds,
    Nanoseconds,
    Count,
    Bytes,
}

/// What was measured on one machine in one run.
#[derive(Clone, Debug, Default, PartialEq)]
pub struct Run {
    /// What is said of machine, files and method, by name.
    pub facts: Vec<(String, String)>,
    pub groups: Vec<Group>,
}

/// Rows with the same columns.
#[derive(Clone, Debug, PartialEq)]
pub struct Group {
    pub name: String,
    pub unit: Unit,
    pub columns: Vec<String>,
    pub rows: Vec<Row>,
}

#[derive(Clone, Debug, PartialEq)]
pub struct Row {
    pub label: String,
    /// A figure for each column, where there is one.
    pub cells: Vec<Option<f64>>,
}

const UNITS: [(Unit, &str); 4] = [
    (Unit::Microseconds, "us"),
    (Unit::Nanoseconds, "ns"),
    (Unit::Count, "count"),
    (Unit::Bytes, "bytes"),
];

impl Unit {
    fn name(self) -> &'static str {
        UNITS.iter().find(|(unit, _)| *unit == self).expect("one").1
    }

    fn named(name: &str) -> Option<Unit> {
        Some(UNITS.iter().find(|(_, n)| *n == name)?.0)
    }
}

impl Run {
    /// What is said under a name.
    pub fn fact(&self, name: &str) -> Option<&str> {
        let fact = self.facts.iter().find(|(n, _)| n == name)?;
        Some(&fact.1)
    }

    pub fn group(&self, name: &str) -> Option<&Group> {
        self.groups.iter().find(|group| group.name == name)
    }

    fn read_line(&mut self, line: &str) -> Option<()> {
        let parts: Vec<&str> = line.split('\t').collect();
        match &parts[..] {
            ["fact", name, text] => self.facts.push((name.to_string(), text.to_string())),
            ["group", name, unit, columns @ ..] => self.groups.push(Group {
                name: name.to_string(),
                unit: Unit::named(unit)?,
                columns: columns.iter().map(|c| c.to_string()).collect(),
                rows: Vec::new(),
            }),
            ["row", label, cells @ ..] => {
                let cells: Option<Vec<_>> = cells.iter().map(|c| cell(c)).collect();
                let group = self.groups.last_mut()?;
                let cells = cells.filter(|cells| cells.len() == group.columns.len())?;
                let label = label.to_string();
                group.rows.push(Row { label, cells });
            }
            _ => return None,
        }
        Some(())
    }
}

fn cell(text: &str) -> Option<Option<f64>> {
    match text {
        "-" => Some(None),
        number => number.parse().ok().map(Some),
    }
}

impl Display for Run {
    fn fmt(&self, f: &mut fmt::Formatter<'_>) -> fmt::Result {
        for (name, text) in &self.facts {
            writeln!(f, "fact\t{name}\t{text}")?;
        }
        for group in &self.groups {
            let columns = group.columns.join("\t");
            writeln!(f, "group\t{}\t{}\t{columns}", group.name, group.unit.name())?;
            for row in &group.rows {
                write!(f, "row\t{}", row.label)?;
                for cell in &row.cells {
                    match cell {
                        Some(number) => write!(f, "\t{number}")?,
                        None => f.write_str("\t-")?,
                    }
                }
                writeln!(f)?;
            }
        }
        Ok(())
    }
}

impl FromStr for Run {
    type Err = String;

    fn from_str(text: &str) -> Result<Run, String> {
        let mut run = Run::default();
        for (i, line) in text.lines().enumerate() {
            run.read_line(line)
                .ok_or_else(|| format!("line {} is not of a saved run: {line}", i + 1))?;
        }
        Ok(run)
    }
}

#[cfg(test)]
mod tests {
    use super::*;

    fn run() -> Run {
        let row = |label: &str, cells: [Option<f64>; 2]| Row {
            label: label.into(),
            cells: cells.into(),
        };
        Run {
            facts: vec![("place".into(), "memory: a, b".into())],
            groups: vec![Group {
                name: COMMIT.into(),
                unit: Unit::Microseconds,
                columns: vec!["Rust".into(), "LMDB".into()],
                rows: vec![
                    row("1 page", [Some(3871.5), Some(6400.0)]),
                    row("settle", [Some(0.0), None]),
                ],
            }],
        }
    }

    #[test]
    fn what_was_saved_is_read() {
        assert_eq!(run().to_string().parse(), Ok(run()));
    }

    #[test]
    fn a_line_that_was_not_saved_is_refused() {
        for line in ["row\ta\t1", "group\ta\tdays\tRust", "fact\ta", "1 page 3.9"] {
            assert!(line.parse::<Run>().is_err(), "{line}");
        }
        let short = format!("{}row\t8 pages\t1\n", run());
        assert!(short.parse::<Run>().is_err());
    }
}
