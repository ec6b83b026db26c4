//! Runs of one kind of place, joined: of every figure the middle one, the lowest and the highest.

use saved::{Group, Row, Run, LANES, LMDB};

#[derive(Clone, Copy)]
pub struct Figure {
    pub low: f64,
    pub middle: f64,
    pub high: f64,
}

pub struct Joined {
    pub runs: usize,
    first: Run,
    groups: Vec<(String, Vec<JoinedRow>)>,
}

pub struct JoinedRow {
    pub label: String,
    /// A figure for each store, where there is one.
    pub figures: Vec<Option<Figure>>,
    /// The time of each ready layer by LMDB's in the same run, the middle one.
    pub ratios: [Option<f64>; LANES],
}

/// The groups that are drawn.
pub const GROUPS: [&str; 4] = [saved::COMMIT, saved::IN_A_ROW, saved::OPEN, saved::FIRST];

impl Joined {
    /// All runs must have the same rows.
    pub fn new(runs: &[&Run]) -> Result<Joined, String> {
        let groups = GROUPS.iter().map(|name| {
            let all: Option<Vec<&Group>> = runs.iter().map(|run| run.group(name)).collect();
            let all = all.ok_or_else(|| format!("a run without \"{name}\""))?;
            Ok((name.to_string(), joined_rows(&all)?))
        });
        Ok(Joined {
            runs: runs.len(),
            groups: groups.collect::<Result<_, String>>()?,
            first: runs[0].clone(),
        })
    }

    /// What the first run says under a name.
    pub fn fact(&self, name: &str) -> &str {
        self.first.fact(name).unwrap_or("unknown")
    }

    pub fn rows(&self, group: &str) -> &[JoinedRow] {
        let found = self.groups.iter().find(|(name, _)| name == group);
        found.map_or(&[], |(_, rows)| rows)
    }

    pub fn row(&self, group: &str, label: &str) -> Option<&JoinedRow> {
        self.rows(group).iter().find(|row| row.label == label)
    }
}

fn joined_rows(groups: &[&Group]) -> Result<Vec<JoinedRow>, String> {
    let rows = groups[0].rows.iter().enumerate();
    rows.map(|(i, row)| {
        let all: Option<Vec<&Row>> = groups
            .iter()
            .map(|group| group.rows.get(i).filter(|other| other.label == row.label))
            .collect();
        let all = all.ok_or_else(|| format!("a run without the row \"{}\"", row.label))?;
        Ok(JoinedRow {
            label: row.label.clone(),
            figures: (0..row.cells.len()).map(|c| figure(&all, c)).collect(),
            ratios: std::array::from_fn(|lane| ratio(&all, lane)),
        })
    })
    .collect()
}

fn figure(rows: &[&Row], column: usize) -> Option<Figure> {
    let all = sorted(rows.iter().filter_map(|row| row.cells[column]));
    Some(Figure {
        low: *all.first()?,
        middle: all[all.len() / 2],
        high: *all.last()?,
    })
}

fn ratio(rows: &[&Row], lane: usize) -> Option<f64> {
    let to_lmdb = |row: &&Row| Some(row.cells[lane]? / row.cells[LMDB]?);
    let all = sorted(rows.iter().filter_map(to_lmdb));
    all.get(all.len() / 2).copied()
}

fn sorted(some: impl Iterator<Item = f64>) -> Vec<f64> {
    let mut all: Vec<f64> = some.collect();
    all.sort_by(f64::total_cmp);
    all
}
