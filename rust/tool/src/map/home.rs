//! The home ranges: a row for each run, its pot first.

use super::svg::Svg;
use super::{Paint, MARGIN, WIDTH};
use crate::card::{Placed, Run, EMPTY};
use crate::started::Started;
use crate::text::oids;

/// Room for an OID before a row, and a block number behind it.
const LEFT: f64 = MARGIN + 80.0;
const RIGHT: f64 = 52.0;
/// What all rows together may take, if they need not be lower than the lowest.
const HEIGHT: f64 = 1600.0;
const LOWEST: f64 = 3.0;
const WIDEST: f64 = 22.0;
const HEADING: f64 = 34.0;
const NOTE: &str =
    "A row is a pot and its pages: left the OID of its first page, right the pot's block.";
/// Between two numbers that stand above each other.
const LABEL: f64 = 13.0;

/// Where the rows are, and how large their cells.
pub struct Rows {
    top: f64,
    cell: f64,
    height: f64,
    /// From row to row.
    pitch: f64,
    /// Rows of each range.
    runs: Vec<usize>,
}

impl Rows {
    pub fn of(card: &Started, top: f64) -> Rows {
        let ranges = &card.geometry.ranges;
        let runs: Vec<usize> = ranges.iter().map(|placed| placed.runs().count()).collect();
        let all_runs = ranges.iter().flat_map(Placed::runs);
        let widest = all_runs.map(|run| 1 + run.pages).max().unwrap_or(1);
        let room = WIDTH - LEFT - RIGHT - MARGIN;
        let cell = (room / widest as f64).min(WIDEST);
        let rows = runs.iter().sum::<usize>() as f64;
        let height = (HEIGHT / rows).clamp(LOWEST, cell.max(11.0));
        Rows {
            top,
            cell,
            height,
            pitch: height + if height > 6.0 { 3.0 } else { 1.0 },
            runs,
        }
    }

    fn range_height(&self, runs: usize) -> f64 {
        HEADING + self.pitch * runs as f64 + 12.0
    }

    /// Below all rows.
    pub fn end(&self) -> f64 {
        let ranges = self.runs.iter().map(|runs| self.range_height(*runs));
        self.top + ranges.sum::<f64>() + HEADING
    }

    pub fn draw(&self, card: &Started, svg: &mut Svg) {
        svg.grid_pattern(LEFT, self.cell);
        let mut top = self.top;
        for (i, placed) in card.geometry.ranges.iter().enumerate() {
            svg.path("rule", &format!("M{MARGIN} {top}H{}", WIDTH - MARGIN));
            svg.text(
                "head",
                (MARGIN, top + 21.0),
                &format!("Range {i}: {}", placed.said()),
            );
            self.rows(card, placed, top + HEADING, svg);
            top += self.range_height(self.runs[i]);
        }
        svg.text("faint", (MARGIN, top + HEADING / 2.0), NOTE);
    }

    fn rows(&self, card: &Started, placed: &Placed, top: f64, svg: &mut Svg) {
        let labelled = (LABEL / self.pitch).ceil() as usize;
        for (i, run) in placed.runs().enumerate() {
            let y = top + self.pitch * i as f64;
            self.row(card, &run, y, svg);
            if i.is_multiple_of(labelled) {
                let base = y + self.height / 2.0 + 4.0;
                svg.text("row end", (LEFT - 8.0, base), &run.first.to_string());
                let right = LEFT + self.cell * (1 + run.pages) as f64 + 8.0;
                svg.text("row", (right, base), &run.pot.to_string());
            }
        }
    }

    fn row(&self, card: &Started, run: &Run, y: f64, svg: &mut Svg) {
        let pot = Paint::of_pot(card, run.pot);
        let told = format!("block {}: {}", run.pot, run.pot_said());
        let size = (self.cell, self.height);
        svg.told_rect(pot.class(), (LEFT, y), size, &told);
        for stretch in stretches(card, run) {
            let x = LEFT + self.cell * (1 + stretch.first) as f64;
            let cells = (stretch.last - stretch.first + 1) as f64;
            let size = (self.cell * cells, self.height);
            svg.told_rect(stretch.paint.class(), (x, y), size, &stretch.told(run));
        }
        let whole = self.cell * (1 + run.pages) as f64;
        svg.grid((LEFT, y), (whole, self.height));
    }
}

/// Pages that follow each other and are drawn and told alike.
struct Stretch {
    first: usize,
    last: usize,
    paint: Paint,
    count: u32,
}

impl Stretch {
    fn told(&self, run: &Run) -> String {
        let oids = oids(run.oid(self.first), run.oid(self.last));
        let what = match self.paint {
            Paint::Empty => EMPTY,
            Paint::Home => "bytes at home",
            _ => "bytes in the area",
        };
        format!("{oids}: count {}, {what}", self.count)
    }
}

fn stretches(card: &Started, run: &Run) -> Vec<Stretch> {
    let mut stretches: Vec<Stretch> = Vec::new();
    for entry in 0..run.pages {
        let mark = card.mark(run, entry);
        let paint = Paint::of_page(card, run.page(entry), mark.empty);
        match stretches.last_mut() {
            Some(last) if (last.paint, last.count) == (paint, mark.count) => last.last = entry,
            _ => stretches.push(Stretch {
                first: entry,
                last: entry,
                paint,
                count: mark.count,
            }),
        }
    }
    stretches
}
