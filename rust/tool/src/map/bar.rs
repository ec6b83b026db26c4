//! The card as one bar: header, area, ranges.

use super::svg::Svg;
use super::{BAR_AT, MARGIN, WIDTH};
use crate::started::Started;
use crate::text::blocks;

const HEIGHT: f64 = 26.0;
/// A part is never narrower, so that its words have room.
const LEAST: f64 = 92.0;
const HEADER: f64 = 62.0;

struct Part {
    class: &'static str,
    name: String,
    first: usize,
    last: usize,
}

impl Part {
    fn blocks(&self) -> usize {
        self.last - self.first + 1
    }
}

pub fn draw(card: &Started, svg: &mut Svg) {
    let parts = parts(card);
    let all: usize = parts.iter().map(Part::blocks).sum();
    let spare = WIDTH - 2.0 * MARGIN - HEADER - LEAST * parts.len() as f64;
    part(svg, MARGIN, HEADER, &header());
    let mut x = MARGIN + HEADER;
    for one in &parts {
        let width = LEAST + spare * one.blocks() as f64 / all as f64;
        part(svg, x, width, one);
        x += width;
    }
}

fn header() -> Part {
    Part {
        class: "header",
        name: "header".into(),
        first: 0,
        last: 0,
    }
}

fn parts(card: &Started) -> Vec<Part> {
    let area = Part {
        class: "area",
        name: "area".into(),
        first: 1,
        last: card.geometry.ring.area,
    };
    let ranges = card.geometry.ranges.iter().enumerate();
    let ranges = ranges.map(|(i, placed)| Part {
        class: "range",
        name: format!("range {i}"),
        first: placed.block,
        last: placed.last_block(),
    });
    std::iter::once(area).chain(ranges).collect()
}

fn part(svg: &mut Svg, x: f64, width: f64, part: &Part) {
    let blocks = blocks(part.first, part.last);
    let told = format!("{}: {blocks}", part.name);
    // Eight ranges leave room for the numbers alone.
    let numbers = blocks.trim_start_matches("blocks ");
    let class = format!("{} cell", part.class);
    svg.told_rect(&class, (x, BAR_AT), (width, HEIGHT), &told);
    let middle = x + width / 2.0;
    svg.text("tick mid", (middle, BAR_AT + HEIGHT + 15.0), &part.name);
    svg.text("tick mid", (middle, BAR_AT + HEIGHT + 29.0), numbers);
}
