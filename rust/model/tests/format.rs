//! What docs/FORMAT.md shows, held to the model: the image of the whole run
//! and the worked numbers.

use model::generation::{directory_blocks, size};
use model::geometry::{BLOCK, RUN};
use model::{Geometry, Lent, Model, Range};

const PAGE: &str = include_str!("../../../docs/FORMAT.md");
const CARD: usize = 11 * BLOCK;
const LENT: Lent = Lent {
    card: CARD,
    memory: 4 * BLOCK,
};
/// The bytes before a star, which repeat to the end of the block.
const REPEATED: usize = 80;

/// The lines of code under a heading, up to the next one.
fn code_under(heading: &str) -> Vec<&'static str> {
    let lines = PAGE.lines().skip_while(|line| *line != heading);
    let section = lines.skip(1).take_while(|line| !line.starts_with('#'));
    section
        .filter_map(|line| line.strip_prefix("    "))
        .collect()
}

/// Offset and bytes of a line that shows some: those behind the colon, up to
/// the two spaces before its words.
fn bytes_shown(line: &str) -> Option<(usize, Vec<u8>)> {
    let (offset, rest) = line.split_once(": ")?;
    let offset = usize::from_str_radix(offset, 16).ok()?;
    let digits = rest.split("  ").next()?.split(' ');
    let bytes = digits.map(|byte| u8::from_str_radix(byte, 16));
    Some((offset, bytes.collect::<Result<_, _>>().ok()?))
}

/// Repeats the bytes before `from` to the end of its block.
fn repeat(card: &mut [u8], from: usize) {
    for at in from..from.next_multiple_of(BLOCK) {
        card[at] = card[at - REPEATED];
    }
}

/// The card that the page shows under a heading; what no line shows is zero.
fn card_shown(heading: &str) -> Vec<u8> {
    let mut card = vec![0; CARD];
    let mut end = 0;
    for line in code_under(heading) {
        if let Some((offset, bytes)) = bytes_shown(line) {
            end = offset + bytes.len();
            card[offset..end].copy_from_slice(&bytes);
        } else if line.starts_with('*') {
            repeat(&mut card, end);
        }
    }
    card
}

/// Compared block by block, so that a difference can be read.
fn assert_shown(heading: &str, card: &[u8]) {
    let shown = card_shown(heading);
    assert_eq!(shown.len(), card.len());
    for (block, (on_page, on_card)) in shown.chunks(BLOCK).zip(card.chunks(BLOCK)).enumerate() {
        assert_eq!(on_page, on_card, "{heading}: block {block}");
    }
}

fn assert_line(line: String) {
    let stands = PAGE.lines().any(|shown| shown == line);
    assert!(stands, "no line of the page is: {line}");
}

fn formatted() -> Model {
    let mut model = Model::new(vec![0; CARD]);
    assert_eq!(model.format(CARD, 8, &[100, 1]), Ok(()));
    model
}

#[test]
fn card_after_format() {
    assert_shown("### After format", &formatted().card);
}

#[test]
fn card_after_the_last_advance() {
    let mut model = formatted();
    assert_eq!(model.start(LENT), Ok(()));
    assert_eq!(model.write(LENT, 100, 0, 0, &[7]), Ok(()));
    assert_eq!(model.snapshot(LENT), Ok(()));
    let advances = std::iter::from_fn(|| model.advance(LENT).ok());
    let run: Vec<String> = advances
        .map(|(kind, block)| format!("{kind:?} {block}"))
        .collect();
    assert_line(format!("    {}", run.join(", ")));
    assert_shown("### After the last advance", &model.card);
}

#[test]
fn blocks_of_ranges() {
    for pages in [1, 102, 103] {
        let blocks = Range { first: 0, pages }.blocks();
        assert_line(format!(
            "| {pages} | {} | {blocks} |",
            (pages as usize).div_ceil(RUN)
        ));
    }
}

#[test]
fn places_of_oids() {
    let geometry = Geometry::new(135, 8, &[100, 103, 1000, 20]).expect("the ranges fill the card");
    for (oid, start, r) in [(100, 9, 0), (201, 9, 101), (202, 9, 102), (1005, 114, 5)] {
        let place = geometry.place(oid).expect("the OID is in a range");
        let (page, pot, at) = (place.page, place.pot, place.at);
        assert_line(format!("| {oid} | {start} | {r} | {page} | {pot} | {at} |"));
    }
}

#[test]
fn sizes_of_generations() {
    for (p, e) in [(2, 2), (65, 65), (251, 251)] {
        let (directory, size) = (directory_blocks(e), size(p, e));
        assert_line(format!("| {p} | {e} | {directory} | {size} |"));
    }
}
