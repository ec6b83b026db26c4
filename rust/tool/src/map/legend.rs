//! What the colours mean, and how many blocks have each.

use super::svg::Svg;
use super::tally::Tally;
use super::{Paint, MARGIN, RING_AT, WIDTH};
use crate::started::Started;
use crate::text::thousands;

const LEFT: f64 = 560.0;
const STEP: f64 = 25.0;
const SWATCH: f64 = 15.0;

const AREA: [(Paint, &str); 6] = [
    (Paint::Committed, "page block with a page"),
    (Paint::PotCommitted, "page block with a pot"),
    (Paint::Unnamed, "page block that no entry names"),
    (Paint::Directory, "directory"),
    (Paint::Trailer, "trailer"),
    (Paint::Free, "free"),
];

const HOME: [(Paint, &str); 5] = [
    (Paint::Empty, "empty page: home may hold any bytes"),
    (Paint::Home, "page, its bytes at home"),
    (Paint::Committed, "page, its bytes in the area"),
    (Paint::Pot, "pot, its bytes at home"),
    (Paint::PotCommitted, "pot, its bytes in the area"),
];

pub fn draw(card: &Started, tally: &Tally, svg: &mut Svg) {
    let mut y = RING_AT + 40.0;
    svg.text("head", (LEFT, y), "Area: the committed generation");
    for (paint, words) in AREA {
        y += STEP;
        let number = tally.area.get(&paint).copied().unwrap_or(0);
        line(svg, y, paint, words, number);
    }
    y += STEP;
    let (x, middle) = (LEFT + SWATCH / 2.0, y - 11.0);
    let mark = format!("M{x} {middle}l7.5 14h-15Z");
    svg.path("next", &mark);
    let next = format!("the next generation begins at block {}", card.next());
    svg.text("", (LEFT + SWATCH + 10.0, y), &next);
    y += 44.0;
    svg.text("head", (LEFT, y), "Home: where a start reads each frame");
    for (paint, words) in HOME {
        y += STEP;
        let number = tally.home.get(&paint).copied().unwrap_or(0);
        line(svg, y, paint, words, number);
    }
}

fn line(svg: &mut Svg, y: f64, paint: Paint, words: &str, number: usize) {
    let square = (SWATCH, SWATCH);
    svg.rect(paint.class(), (LEFT, y - SWATCH + 3.0), square);
    svg.text("", (LEFT + SWATCH + 10.0, y), words);
    svg.text("end", (WIDTH - MARGIN, y), &thousands(number));
}
