//! The ring of the area: block 1 begins at the top, and it goes on clockwise.

use super::svg::{short, Pair, Svg};
use super::{Paint, RING_AT, RING_HEIGHT};
use crate::started::Started;
use crate::text::thousands;
use std::f64::consts::TAU;

const CENTRE: Pair = (262.0, RING_AT + RING_HEIGHT / 2.0);
const OUTER: f64 = 188.0;
const INNER: f64 = 126.0;
const TICKS: f64 = OUTER + 13.0;
/// Block numbers that have room around it.
const MOST_TICKS: usize = 24;

pub fn draw(card: &Started, svg: &mut Svg) {
    let area = card.geometry.ring.area;
    // Gaps as wide as the cells would leave no colour.
    let gap = (0.15 * TAU * INNER / area as f64).min(1.0);
    svg.with_gaps(gap, |svg| cells(card, svg));
    for block in ticks(area) {
        let (x, y) = at(TICKS, block as f64 - 0.5, area);
        svg.text("tick mid", (x, y + 4.0), &block.to_string());
    }
    next(card, svg);
    middle(card, svg);
}

fn cells(card: &Started, svg: &mut Svg) {
    let area = card.geometry.ring.area;
    for block in 1..=area {
        let paint = Paint::of_area(card, block);
        let class = format!("{} cell", paint.class());
        let told = told(card, block, paint);
        svg.told_path(&class, &cell(block, area), &told);
    }
}

/// That far from the centre, at so many blocks from the top.
fn at(radius: f64, blocks: f64, area: usize) -> Pair {
    let turn = TAU * blocks / area as f64;
    (
        CENTRE.0 + radius * turn.sin(),
        CENTRE.1 - radius * turn.cos(),
    )
}

fn point(pair: Pair) -> String {
    format!("{} {}", short(pair.0), short(pair.1))
}

fn cell(block: usize, area: usize) -> String {
    let (from, to) = (block as f64 - 1.0, block as f64);
    let corner = |radius, blocks| point(at(radius, blocks, area));
    format!(
        "M{}A{OUTER} {OUTER} 0 0 1 {}L{}A{INNER} {INNER} 0 0 0 {}Z",
        corner(OUTER, from),
        corner(OUTER, to),
        corner(INNER, to),
        corner(INNER, from),
    )
}

/// Block 1, and every so many so that there is room for each.
fn ticks(area: usize) -> Vec<usize> {
    let step = (0..).map(|i| 1 << i).find(|step| area / step <= MOST_TICKS);
    let step = step.unwrap_or(area);
    let apart = |block: &usize| step == 1 || area + 1 - block > step / 2;
    let multiples = (1..=area / step).map(|i| i * step).filter(apart);
    std::iter::once(1)
        .chain(multiples.filter(|block| *block > 1))
        .collect()
}

fn told(card: &Started, block: usize, paint: Paint) -> String {
    match paint {
        Paint::Directory => format!("block {block}: directory"),
        Paint::Trailer => format!("block {block}: trailer"),
        Paint::Unnamed => format!("block {block}: page block that no entry names"),
        Paint::Free => format!("block {block}: free"),
        _ => format!("block {block}: {}", card.said_in(block)),
    }
}

/// A mark inside the ring, at the edge where the next generation begins.
fn next(card: &Started, svg: &mut Svg) {
    let (area, next) = (card.geometry.ring.area, card.next());
    let edge = next as f64 - 1.0;
    // As wide at each A.
    let half = area as f64 / 60.0;
    let corners = [
        at(INNER - 3.0, edge, area),
        at(INNER - 17.0, edge - half, area),
        at(INNER - 17.0, edge + half, area),
    ]
    .map(point);
    let d = format!("M{}L{}L{}Z", corners[0], corners[1], corners[2]);
    let told = format!("the next generation begins at block {next}");
    svg.told_path("next", &d, &told);
}

fn middle(card: &Started, svg: &mut Svg) {
    let ring = card.geometry.ring;
    let (x, y) = CENTRE;
    let commit = thousands(card.header.commit);
    svg.text("faint mid", (x, y - 44.0), "commit");
    svg.text("big", (x, y - 14.0), &commit);
    svg.text(
        "mid",
        (x, y + 14.0),
        &format!("A {}, H {}", ring.area, ring.half()),
    );
    let generation = match &card.committed {
        Some(committed) => format!(
            "size {}: p {}, e {}",
            committed.size,
            committed.p,
            committed.entries.len()
        ),
        None => "no generation".into(),
    };
    svg.text("mid", (x, y + 34.0), &generation);
    svg.text(
        "faint mid",
        (x, y + 54.0),
        &format!("next at block {}", card.next()),
    );
}

#[cfg(test)]
mod tests {
    use super::*;

    #[test]
    fn block_numbers_have_room() {
        assert!(ticks(8).into_iter().eq(1..=8));
        assert!(ticks(24).into_iter().eq(1..=24));
        assert_eq!(ticks(64).len(), 16);
        for area in 8..=512 {
            let ticks = ticks(area);
            assert!(ticks.len() <= MOST_TICKS + 1, "{area}");
            assert!(ticks.iter().all(|block| (1..=area).contains(block)));
            assert!(ticks.windows(2).all(|pair| pair[0] < pair[1]));
        }
    }
}
