//! The table: printed row by row as it is made, and kept to be saved.

use saved::{grouped, Group, Row, Run, Unit};

const LABEL: usize = 36;

pub type Cells = Vec<Option<f64>>;

/// What stands beside the figures of a row.
pub type Ratio = Option<f64>;

pub struct Table {
    run: Run,
}

fn short(n: f64) -> String {
    match n {
        n if n < 10.0 => format!("{n:.2}"),
        n if n < 100.0 => format!("{n:.1}"),
        n => grouped(n),
    }
}

/// A figure of which whole ones are told as such.
fn counted(n: f64) -> String {
    if n.fract() == 0.0 {
        grouped(n)
    } else {
        short(n)
    }
}

fn text(unit: Unit, n: f64) -> String {
    match unit {
        Unit::Microseconds => short(n / 1000.0),
        Unit::Nanoseconds => short(n),
        Unit::Count => counted(n),
        Unit::Bytes => grouped(n),
    }
}

fn line(label: &str, cells: &[String], ratios: &[String]) {
    // A space before each, so that a slow disk's figures stay apart.
    let columns: String = cells.iter().map(|c| format!(" {c:>10}")).collect();
    let ratios: String = ratios.iter().map(|r| format!(" {r:>9}")).collect();
    let text = format!("{label:<LABEL$}{columns}{ratios}");
    println!("{}", text.trim_end());
}

impl Table {
    pub fn new() -> Table {
        Table {
            run: Run::default(),
        }
    }

    /// A line of the head.
    pub fn fact(&mut self, name: &str, text: String) {
        println!("{name:<9}{text}");
        self.run.facts.push((name.to_string(), text));
    }

    /// The head of some rows.
    pub fn group(&mut self, name: &str, unit: Unit, columns: &[&str], ratios: &[&str]) {
        let names = |some: &[&str]| some.iter().map(|c| c.to_string()).collect::<Vec<_>>();
        let columns = names(columns);
        println!();
        line(name, &columns, &names(ratios));
        self.run.groups.push(Group {
            name: name.to_string(),
            unit,
            columns,
            rows: Vec::new(),
        });
    }

    pub fn row(&mut self, label: &str, cells: Cells, ratios: &[Ratio]) {
        let group = self.run.groups.last_mut().expect("a group");
        let or_none = |text: Option<String>| text.unwrap_or("-".into());
        let texts = cells
            .iter()
            .map(|c| or_none(c.map(|n| text(group.unit, n))));
        let ratios = ratios.iter().map(|r| or_none(r.map(short)));
        line(
            label,
            &texts.collect::<Vec<_>>(),
            &ratios.collect::<Vec<_>>(),
        );
        let label = label.to_string();
        group.rows.push(Row { label, cells });
    }

    /// All that was printed.
    pub fn run(&self) -> &Run {
        &self.run
    }
}
