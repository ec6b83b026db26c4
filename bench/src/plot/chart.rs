//! The picture: a panel for each place, a row for each measure, a bar for each store. Bars are as
//! long as the logarithm of the time.

use crate::joined::{Joined, JoinedRow, GROUPS};
use crate::svg::{Anchor, Style, Svg};
use saved::{grouped, STORES};

pub struct Panel {
    pub title: &'static str,
    pub joined: Joined,
}

const TITLE: &str = "Time of commits and opens, beside LMDB and SQLite";
const HEADINGS: [&str; GROUPS.len()] = [
    "A durable commit; the last one is home",
    "Durable commits in a row; each takes the last one home",
    "Open, up to the first page read",
    "The first commit after it, of 32 pages far apart",
];
/// What the legend says of each store, and where.
const NAMES: [(&str, f64); STORES.len()] = [
    ("Kelungad, Rust", 0.0),
    ("Kelungad, C", 124.0),
    ("LMDB", 232.0),
    ("SQLite, WAL", 306.0),
    ("SQLite, rollback journal", 414.0),
];
const FILLS: [&str; STORES.len()] = ["#2f6690", "#7fa7c9", "#e3a857", "#b4b4b4", "#d8d8d8"];

const INK: &str = "#222222";
const FAINT: &str = "#666666";
const GRID: &str = "#e4e4e4";
const AHEAD: &str = "#1f6f3a";
const BEHIND: &str = "#a8401c";

// Lengths, in the picture's own unit.
const MARGIN: f64 = 20.0;
const LABELS: f64 = 142.0;
const SCALE: f64 = 300.0;
/// Room for words behind the longest bar.
const WORDS: f64 = 62.0;
const PANEL: f64 = SCALE + WORDS;
const GAP: f64 = 24.0;
const TOP: f64 = 124.0;
const HEADING: f64 = 32.0;
const BAR: f64 = 9.0;
const PITCH: f64 = 10.5;
const BETWEEN: f64 = 9.0;
const ROW: f64 = PITCH * STORES.len() as f64 + BETWEEN;
const BOTTOM: f64 = 66.0;

const PLAIN: Style = Style {
    anchor: Anchor::Start,
    size: 11.0,
    colour: INK,
    bold: false,
};
const SMALL: Style = Style { size: 9.0, ..PLAIN };

/// Microseconds on a logarithmic scale, from a power of ten on.
struct Axis {
    x: f64,
    from: f64,
    to: f64,
}

impl Axis {
    fn new(x: f64, joined: &Joined) -> Axis {
        let rows = GROUPS.iter().flat_map(|group| joined.rows(group));
        let figures = rows.flat_map(|row| row.figures.iter().flatten());
        let (low, high) = figures.fold((f64::INFINITY, 0f64), |(low, high), f| {
            (low.min(f.low), high.max(f.high))
        });
        let power = |ns: f64| (ns / 1000.0).log10();
        Axis {
            x,
            from: power(low).floor(),
            to: power(high),
        }
    }

    fn at(&self, ns: f64) -> f64 {
        self.x + SCALE * ((ns / 1000.0).log10() - self.from) / (self.to - self.from)
    }

    fn ticks(&self) -> impl Iterator<Item = (f64, String)> + '_ {
        (self.from as i32..=self.to as i32).map(|power| {
            let us = 10f64.powi(power);
            (self.at(us * 1000.0), grouped(us))
        })
    }
}

fn microseconds(ns: f64) -> String {
    match ns / 1000.0 {
        us if us < 10.0 => format!("{us:.1}"),
        us => grouped(us),
    }
}

/// The rows of a group, of whichever panel has most.
fn labels(panels: &[Panel], group: &str) -> Vec<String> {
    let rows = panels.iter().map(|panel| panel.joined.rows(group));
    let most = rows.max_by_key(|rows| rows.len()).unwrap_or(&[]);
    most.iter().map(|row| row.label.clone()).collect()
}

fn panel_x(i: usize) -> f64 {
    MARGIN + LABELS + i as f64 * (PANEL + GAP)
}

pub fn draw(panels: &[Panel]) -> String {
    let mut svg = Svg::default();
    let groups: Vec<Vec<String>> = GROUPS.iter().map(|g| labels(panels, g)).collect();
    let rows: usize = groups.iter().map(Vec::len).sum();
    let body = rows as f64 * ROW + GROUPS.len() as f64 * HEADING;
    let width = panel_x(panels.len()) - GAP + MARGIN;
    head(&mut svg, panels);
    let axes: Vec<Axis> = panels
        .iter()
        .enumerate()
        .map(|(i, panel)| Axis::new(panel_x(i), &panel.joined))
        .collect();
    axes.iter().for_each(|axis| grid(&mut svg, axis, body));
    let mut y = TOP;
    for ((group, heading), labels) in GROUPS.iter().zip(HEADINGS).zip(&groups) {
        let style = Style {
            bold: true,
            size: 12.0,
            ..PLAIN
        };
        svg.text(MARGIN, y + HEADING - 11.0, style, heading);
        y += HEADING;
        for label in labels {
            row(&mut svg, y, panels, &axes, group, label);
            y += ROW;
        }
    }
    foot(&mut svg, panels, TOP + body);
    svg.whole(width, TOP + body + BOTTOM, TITLE)
}

/// Title, legend, and what each panel is of.
fn head(svg: &mut Svg, panels: &[Panel]) {
    let title = Style {
        size: 17.0,
        bold: true,
        ..PLAIN
    };
    svg.text(MARGIN, 32.0, title, TITLE);
    for ((name, at), fill) in NAMES.iter().zip(FILLS) {
        let x = MARGIN + at;
        svg.rect([x, 48.0, 11.0, 11.0], fill);
        svg.text(x + 16.0, 57.5, PLAIN, name);
    }
    for (i, panel) in panels.iter().enumerate() {
        let style = Style {
            bold: true,
            size: 13.0,
            ..PLAIN
        };
        svg.text(panel_x(i), 92.0, style, panel.title);
        let files = panel.joined.fact("files");
        let faint = Style {
            colour: FAINT,
            ..SMALL
        };
        svg.text(panel_x(i), 106.0, faint, files);
    }
}

/// Lines of the powers of ten, named above and below.
fn grid(svg: &mut Svg, axis: &Axis, body: f64) {
    let style = Style {
        anchor: Anchor::Middle,
        colour: FAINT,
        ..SMALL
    };
    for (x, name) in axis.ticks() {
        svg.line([x, TOP + 6.0, x, TOP + body], GRID, 1.0);
        svg.text(x, TOP + 2.0, style, &name);
        svg.text(x, TOP + body + 12.0, style, &name);
    }
    let middle = axis.x + SCALE / 2.0;
    let below = TOP + body + 26.0;
    svg.text(
        middle,
        below,
        style,
        "microseconds, logarithmic; shorter is better",
    );
}

fn row(svg: &mut Svg, y: f64, panels: &[Panel], axes: &[Axis], group: &str, label: &str) {
    let middle = y + PITCH * STORES.len() as f64 / 2.0 + 3.5;
    let style = Style {
        anchor: Anchor::End,
        ..PLAIN
    };
    svg.text(MARGIN + LABELS - 10.0, middle, style, label);
    for (panel, axis) in panels.iter().zip(axes) {
        match panel.joined.row(group, label) {
            Some(found) => bars(svg, y, axis, found),
            None => {
                let style = Style {
                    colour: FAINT,
                    ..SMALL
                };
                svg.text(axis.x + 6.0, middle, style, "not in memory");
            }
        }
    }
}

fn bars(svg: &mut Svg, y: f64, axis: &Axis, row: &JoinedRow) {
    for (i, figure) in row.figures.iter().enumerate() {
        let Some(figure) = figure else { continue };
        let top = y + i as f64 * PITCH;
        let end = axis.at(figure.middle);
        svg.rect([axis.x, top, end - axis.x, BAR], FILLS[i]);
        if figure.low < figure.high {
            let middle = top + BAR / 2.0;
            let spread = [axis.at(figure.low), middle, axis.at(figure.high), middle];
            svg.line(spread, INK, 1.0);
        }
        let ratio = row.ratios.get(i).copied().flatten();
        let (x, y) = (axis.at(figure.high) + 4.0, top + BAR - 1.2);
        words(svg, x, y, figure.middle, ratio);
    }
}

/// The time, and how it is to LMDB's.
fn words(svg: &mut Svg, x: f64, y: f64, ns: f64, ratio: Option<f64>) {
    let time = microseconds(ns);
    svg.text(x, y, SMALL, &time);
    if let Some(ratio) = ratio {
        let style = Style {
            colour: if ratio < 1.0 { AHEAD } else { BEHIND },
            bold: true,
            ..SMALL
        };
        let after = x + 8.0 + 5.3 * time.len() as f64;
        svg.text(after, y, style, &format!("{ratio:.2}"));
    }
}

/// How the figures were made.
fn foot(svg: &mut Svg, panels: &[Panel], y: f64) {
    let style = Style {
        colour: FAINT,
        ..SMALL
    };
    let runs: Vec<String> = panels
        .iter()
        .map(|panel| format!("{}: {}", panel.joined.fact("place"), panel.joined.runs))
        .collect();
    let first = &panels[0].joined;
    let lines = [
        format!(
            "Bold: the time divided by LMDB's. The middle of some runs ({}); lines from the lowest to the highest.",
            runs.join(", ")
        ),
        format!("{}; {}.", first.fact("machine"), first.fact("peers")),
    ];
    for (i, line) in lines.iter().enumerate() {
        svg.text(MARGIN, y + 42.0 + 13.0 * i as f64, style, line);
    }
}
