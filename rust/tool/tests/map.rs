//! The drawing is well-formed, and has what the card has.

mod common;

use common::{busy, emptied, on, range, whole_image, Folder, Maker};
use std::fs;

/// Elements that are opened, each closed in its turn; its text has no loose signs.
fn balanced(svg: &str) -> Result<usize, String> {
    let mut open = Vec::new();
    let mut elements = 0;
    let mut rest = svg;
    while let Some(start) = rest.find('<') {
        let text = &rest[..start];
        if text.contains('>') && !open.ends_with(&["style"]) {
            return Err(format!("a loose > in {text}"));
        }
        let end = rest[start..].find('>').ok_or("a tag without end")? + start;
        let tag = &rest[start + 1..end];
        let name = tag
            .trim_start_matches('/')
            .split([' ', '/'])
            .next()
            .unwrap();
        if let Some(closed) = tag.strip_prefix('/') {
            if open.pop() != Some(closed) {
                return Err(format!("{closed} is closed and not open"));
            }
        } else {
            elements += 1;
            if !tag.matches('"').count().is_multiple_of(2) {
                return Err(format!("quotes of {tag}"));
            }
            if !tag.ends_with('/') {
                open.push(name);
            }
        }
        rest = &rest[end + 1..];
    }
    match open.is_empty() && rest.trim().is_empty() {
        true => Ok(elements),
        false => Err(format!("left open: {open:?}{rest}")),
    }
}

fn map(card: Vec<u8>) -> String {
    let folder = Folder::new();
    let svg = on("map", &folder.file("a<b&c.card", card), &[]).done();
    balanced(&svg).unwrap();
    svg
}

/// Cells and marks that have a text with these words.
fn told(svg: &str, words: &str) -> usize {
    let titles = svg.split("<title>").skip(1);
    titles
        .filter(|title| title.split("</title>").next().unwrap().contains(words))
        .count()
}

#[test]
fn a_tag_that_is_not_closed_is_seen() {
    assert_eq!(balanced("<svg><g a=\"1\"><rect/></g></svg>\n"), Ok(3));
    for wrong in [
        "<svg>",
        "<svg><g></svg>",
        "<svg></svg></g>",
        "<svg a=\"></svg>",
        "<svg>></svg>",
    ] {
        assert!(balanced(wrong).is_err(), "{wrong}");
    }
}

#[test]
fn a_map_has_the_ring_and_the_ranges() {
    let svg = map(busy());
    assert_eq!(told(&svg, "block 1: trailer"), 1);
    assert_eq!(told(&svg, "block 24: directory"), 1);
    assert_eq!(told(&svg, "block 17: page block that no entry names"), 1);
    assert_eq!(told(&svg, "block 18: OID 201"), 1);
    assert_eq!(told(&svg, "block 19: pot of OIDs 100 to 201"), 1);
    assert_eq!(told(&svg, ": free"), 15);
    assert_eq!(told(&svg, "the next generation begins at block 2"), 1);
    assert_eq!(told(&svg, "OIDs 105 to 200: count 0, empty"), 1);
    assert_eq!(told(&svg, "OID 101: count 2, empty"), 1);
    assert_eq!(told(&svg, "OID 104: count 0, bytes in the area"), 1);
    assert_eq!(told(&svg, "OID 202: count 0, bytes at home"), 1);
    for line in [
        ">A 24, H 12<",
        ">size 9: p 7, e 6<",
        ">next at block 2<",
        ">115<",
        ">a&lt;b&amp;c.card<",
    ] {
        assert!(svg.contains(line), "{line}");
    }
}

#[test]
fn a_map_tells_of_a_page_that_is_passed_over() {
    let svg = map(emptied());
    assert_eq!(told(&svg, "block 1: OID 100, passed over"), 1);
    assert_eq!(told(&svg, "empty; home may hold any bytes"), 2);
    assert!(svg.contains(">empty page: home may hold any bytes</text>"));
}

#[test]
fn a_map_stands_for_itself() {
    let svg = map(whole_image());
    for word in [
        "<script",
        "href",
        "url(http",
        "@import",
        "@font-face",
        "<image",
    ] {
        assert!(!svg.contains(word), "{word}");
    }
    assert!(svg.contains("prefers-color-scheme:dark"));
    assert_eq!(svg.matches("http").count(), 1, "the name of SVG itself");
}

#[test]
fn cards_at_the_limits_are_drawn() {
    let eight: Vec<_> = (0..8).map(|i| range(1000 * i, 1 + 40 * i)).collect();
    let largest = range(u32::MAX - 64_384, 64_385);
    for card in [
        Maker::new(8, &[range(0, 1)]),
        Maker::new(512, &eight),
        Maker::new(512, &[largest]),
    ] {
        let svg = map(card.card);
        assert!(svg.contains(">no generation<") && svg.contains(">next at block 1<"));
        assert!(!svg.contains("NaN") && !svg.contains("inf"));
    }
}

#[test]
fn a_map_is_written_to_a_file() {
    let folder = Folder::new();
    let image = folder.file("card", busy());
    let out = folder.path("card.svg");
    assert_eq!(
        on("map", &image, &["--out", out.to_str().unwrap()]).done(),
        ""
    );
    assert_eq!(
        fs::read_to_string(out).unwrap(),
        on("map", &image, &[]).done()
    );
}
