//! The crate held against `include/lane.h` and the library: what they say must be the same. In here,
//! since only the crate itself can tell all its refusals.

extern crate std;

use crate::{c, raw, same_version, Refusal, Report, BLOCK, VERSION};
use std::format;
use std::string::{String, ToString};
use std::vec::Vec;

const HEADER: &str = include_str!("../../../include/lane.h");

/// The number of a `#define`.
fn defined(name: &str) -> u32 {
    let start = format!("#define {name} ");
    let line = HEADER.lines().find_map(|line| line.strip_prefix(&start));
    let word = line.and_then(|rest| rest.split_whitespace().next());
    word.expect(name).parse().expect(name)
}

/// Names and numbers of an enum.
fn members(name: &str) -> Vec<(String, u32)> {
    let start = format!("enum {name} {{");
    let lines = HEADER.lines().skip_while(|line| *line != start).skip(1);
    lines
        .take_while(|line| *line != "};")
        .map(|line| {
            let (member, rest) = line.trim().split_once(" = ").expect(line);
            let end = rest.find([',', ' ']).unwrap_or(rest.len());
            (member.to_string(), rest[..end].parse().expect(line))
        })
        .collect()
}

/// Names and sentences in `lane_refusal_text`.
fn sentences() -> Vec<(String, &'static str)> {
    let cases = HEADER
        .lines()
        .filter_map(|line| line.trim().strip_prefix("case "));
    cases
        .map(|case| {
            let (member, rest) = case.split_once(": return \"").expect(case);
            (member.to_string(), rest.strip_suffix("\";").expect(case))
        })
        .collect()
}

/// A refusal's name in C: `LANE_NONE_WAITS` for `NoneWaits`.
fn c_name(refusal: Refusal) -> String {
    let mut name = String::from("LANE");
    for letter in format!("{refusal:?}").chars() {
        if letter.is_ascii_uppercase() {
            name.push('_');
        }
        name.push(letter.to_ascii_uppercase());
    }
    name
}

#[test]
fn header_crate_and_library_have_one_version() {
    assert_eq!(defined("LANE_VERSION"), VERSION);
    assert_eq!(raw::version(), VERSION);
}

#[test]
#[should_panic(expected = "liblane.a has version 0 of the interface, and this crate is for")]
fn a_library_of_another_version_is_not_called() {
    same_version(0);
}

#[test]
fn a_block_is_as_long_in_c() {
    assert_eq!(defined("LANE_BLOCK") as usize, BLOCK);
}

/// All refusals of the crate, by rising number.
fn refusals() -> impl Iterator<Item = Refusal> {
    (0..1000).filter_map(Refusal::numbered)
}

#[test]
fn a_refusal_has_the_same_name_and_number_in_c() {
    let mut names = Vec::from([("LANE_DONE".to_string(), 0)]);
    names.extend(refusals().map(|refusal| (c_name(refusal), refusal.number())));
    assert_eq!(members("lane_refusal"), names);
}

#[test]
fn a_refusal_says_the_same_in_c() {
    let mut texts = Vec::from([("LANE_DONE".to_string(), "done")]);
    texts.extend(refusals().map(|refusal| (c_name(refusal), refusal.meaning())));
    assert_eq!(sentences(), texts);
}

#[test]
fn a_kind_has_the_same_name_and_number_in_c() {
    let kinds = members("lane_kind");
    assert_eq!(kinds.len(), 7);
    assert_eq!(kinds[0], ("LANE_REFUSED".to_string(), 0));
    for (name, kind) in &kinds[1..] {
        let report = Report::of(c::Report {
            kind: *kind,
            refusal: 0,
            block: 9,
        });
        assert_eq!(format!("LANE_{}", report.unwrap()), format!("{name} 9"));
    }
}
