//! What a run has reached, and what it must reach.

#[derive(Clone, Default)]
pub struct Tally {
    pub days: u64,
    pub calls: u64,
    pub points: u64,
    /// Calls before which something was foretold.
    pub foretold: u64,
    /// Headers whose trailer stands before that of the last one in the ring.
    pub rounds: u64,
    pub failures: u64,
    pub cards: u64,
    /// Of the cards, those whose header was in doubt, and is found old or new.
    pub old_headers: u64,
    pub new_headers: u64,
    pub torn: u64,
    pub spoilt: u64,
    /// Those of a generation of which migration passes over a page, and those that have bytes other
    /// than zeros at home behind a set flag.
    pub passed_over: u64,
    pub behind_flags: u64,
    pub create: u64,
    pub after_failures: u64,
    pub second: u64,
}

/// A row of the table: its name, its number, and the least that a run must reach.
type Row = (&'static str, u64, u64);

impl Tally {
    fn rows(&self) -> [Row; 16] {
        [
            ("days", self.days, 190_000),
            ("calls", self.calls, 1_000_000),
            ("  foretold", self.foretold, 40_000),
            ("points", self.points, 300_000),
            ("rounds of the ring", self.rounds, 1_000),
            ("failures of the drive", self.failures, 600),
            ("cards opened", self.cards, 400_000),
            ("  header old", self.old_headers, 4_000),
            ("  header new", self.new_headers, 4_000),
            ("  torn", self.torn, 200_000),
            ("  spoilt", self.spoilt, 70_000),
            ("  page passed over", self.passed_over, 20_000),
            ("  bytes behind a flag", self.behind_flags, 400_000),
            ("  in create", self.create, 15_000),
            ("  after failures", self.after_failures, 7_000),
            ("  second cuts", self.second, 60_000),
        ]
    }

    /// What was not reached.
    pub fn missing(&self) -> Vec<String> {
        let rows = self.rows();
        let short = rows.iter().filter(|(_, number, least)| number < least);
        short
            .map(|(name, _, least)| format!("{least} {}", name.trim()))
            .collect()
    }
}

/// Both columns.
pub fn table(rust: &Tally, c: &Tally) -> String {
    let mut text = format!("{:24}{:>12}{:>12}\n", "", "Rust", "C");
    for ((name, rust, _), (_, c, _)) in rust.rows().into_iter().zip(c.rows()) {
        text += &format!("{name:24}{:>12}{:>12}\n", spaced(rust), spaced(c));
    }
    text
}

/// With a comma before each three figures.
pub fn spaced(number: u64) -> String {
    let figures = number.to_string();
    let groups: Vec<&str> = figures
        .as_bytes()
        .rchunks(3)
        .rev()
        .map(|group| std::str::from_utf8(group).expect("figures"))
        .collect();
    groups.join(",")
}

#[cfg(test)]
mod tests {
    use super::*;

    #[test]
    fn nothing_reached_is_missing() {
        assert_eq!(Tally::default().missing().len(), 16);
    }

    #[test]
    fn figures_stand_in_threes() {
        assert_eq!(spaced(7), "7");
        assert_eq!(spaced(1_234_567), "1,234,567");
    }
}
