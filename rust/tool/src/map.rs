//! `lane map`: the card and its ring as SVG.

mod bar;
mod home;
mod legend;
mod ring;
mod style;
mod svg;
mod tally;

use crate::arguments::Arguments;
use crate::failure::Failure;
use crate::output::Output;
use crate::started::{Role, Started};
use crate::text::{counted, pages, thousands};
use svg::Svg;
use tally::Tally;

const WIDTH: f64 = 960.0;
/// Left and right of all that is drawn.
const MARGIN: f64 = 32.0;
const BAR_AT: f64 = 84.0;
const RING_AT: f64 = 160.0;
const RING_HEIGHT: f64 = 470.0;
const HOME_AT: f64 = RING_AT + RING_HEIGHT;

pub fn run(arguments: &Arguments) -> Result<(), Failure> {
    let image = arguments.path(0);
    let card = Started::read(image)?;
    let name = image.file_name().unwrap_or(image.as_os_str());
    let drawn = draw(&card, &name.to_string_lossy());
    let out = arguments.value_path("--out");
    let mut out = Output::to(out.as_deref(), image)?;
    out.text(&drawn)?;
    out.finish()
}

fn draw(card: &Started, name: &str) -> String {
    let rows = home::Rows::of(card, HOME_AT);
    let tally = Tally::of(card);
    let height = rows.end().ceil();
    let mut svg = Svg::new(WIDTH, height, name);
    svg.style(style::STYLE);
    svg.rect("ground", (0.0, 0.0), (WIDTH, height));
    svg.text("name", (MARGIN, 40.0), name);
    svg.text("faint", (MARGIN, 62.0), &subtitle(card));
    bar::draw(card, &mut svg);
    ring::draw(card, &mut svg);
    legend::draw(card, &tally, &mut svg);
    rows.draw(card, &mut svg);
    svg.finish()
}

fn subtitle(card: &Started) -> String {
    let geometry = &card.geometry;
    [
        format!("commit {}", thousands(card.header.commit)),
        format!("A {}", geometry.ring.area),
        counted(geometry.ranges.len(), "range", "ranges"),
        pages(geometry.pages()),
        counted(geometry.blocks(), "block", "blocks"),
    ]
    .join(" · ")
}

/// How a block is coloured, by its class in the style.
#[derive(Clone, Copy, Debug, Eq, Ord, PartialEq, PartialOrd)]
enum Paint {
    Empty,
    Home,
    Committed,
    Pot,
    PotCommitted,
    Unnamed,
    Directory,
    Trailer,
    Free,
}

impl Paint {
    fn class(self) -> &'static str {
        match self {
            Paint::Empty => "empty",
            Paint::Home => "home",
            Paint::Committed => "committed",
            Paint::Pot => "pot",
            Paint::PotCommitted => "potcommitted",
            Paint::Unnamed => "unnamed",
            Paint::Directory => "directory",
            Paint::Trailer => "trailer",
            Paint::Free => "free",
        }
    }

    /// An area block. One that pots and pages are found in is a pot's.
    fn of_area(card: &Started, block: usize) -> Paint {
        match card.role(block) {
            Role::Directory => Paint::Directory,
            Role::Trailer => Paint::Trailer,
            Role::Free => Paint::Free,
            Role::Page => match card.frames_in(block)[..] {
                [] => Paint::Unnamed,
                [crate::card::Frame::Page { .. }] => Paint::Committed,
                _ => Paint::PotCommitted,
            },
        }
    }

    fn of_pot(card: &Started, pot: usize) -> Paint {
        match card.in_area(pot) {
            Some(_) => Paint::PotCommitted,
            None => Paint::Pot,
        }
    }

    fn of_page(card: &Started, page: usize, empty: bool) -> Paint {
        match card.in_area(page) {
            _ if empty => Paint::Empty,
            Some(_) => Paint::Committed,
            None => Paint::Home,
        }
    }
}
