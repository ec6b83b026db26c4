//! What each block is, neighbours that are alike in one line.

use crate::card::{Mark, Run};
use crate::failure::Failure;
use crate::output::Output;
use crate::started::{Role, Started};
use crate::text::{oids, span};

/// Blocks that one line tells of.
#[derive(Debug, PartialEq)]
struct Line {
    first: usize,
    last: usize,
    what: String,
}

pub fn write(card: &Started, out: &mut Output) -> Result<(), Failure> {
    out.line(format_args!("blocks"))?;
    let header = Line {
        first: 0,
        last: 0,
        what: "header".into(),
    };
    let lines = std::iter::once(header).chain(area(card)).chain(home(card));
    for Line { first, last, what } in lines {
        let blocks = span(first, last);
        out.line(format_args!("  {blocks:15} {what}"))?;
    }
    Ok(())
}

/// Area blocks that are no page blocks are alike where their role is.
fn area(card: &Started) -> Vec<Line> {
    let mut lines: Vec<Line> = Vec::new();
    for block in 1..=card.geometry.ring.area {
        let what = area_block(card, block);
        match lines.last_mut() {
            Some(line) if line.what == what => line.last = block,
            _ => lines.push(Line {
                first: block,
                last: block,
                what,
            }),
        }
    }
    let next = card.next();
    for line in &mut lines {
        if (line.first..=line.last).contains(&next) {
            let begins = format!("; the next generation begins at block {next}");
            line.what.push_str(&begins);
        }
    }
    lines
}

fn area_block(card: &Started, block: usize) -> String {
    match card.role(block) {
        Role::Directory => "area, directory".into(),
        Role::Trailer => "area, trailer".into(),
        Role::Free => "area, free".into(),
        Role::Page => match card.said_in(block).as_str() {
            "" => "area, page block that no entry names".into(),
            said => format!("area, page block: {said}"),
        },
    }
}

/// Pages of one run that follow each other and are alike.
#[derive(Debug, PartialEq)]
struct Stretch {
    first: usize,
    last: usize,
    mark: Mark,
    /// The area block with the bytes of this one page, which is then alone.
    in_area: Option<usize>,
}

fn stretches(card: &Started, run: &Run) -> Vec<Stretch> {
    let mut stretches: Vec<Stretch> = Vec::new();
    for entry in 0..run.pages {
        let mark = card.mark(run, entry);
        let in_area = card.in_area(run.page(entry)).filter(|_| !mark.empty);
        match stretches.last_mut() {
            Some(last) if last.mark == mark && last.in_area.or(in_area).is_none() => {
                last.last = entry;
            }
            _ => stretches.push(Stretch {
                first: entry,
                last: entry,
                mark,
                in_area,
            }),
        }
    }
    stretches
}

/// A run of which pot and pages are at home and alike, and those behind it that are too.
struct Alike {
    runs: usize,
    first: Run,
    last: Run,
    mark: Mark,
}

fn home(card: &Started) -> Vec<Line> {
    let mut lines = Vec::new();
    for placed in &card.geometry.ranges {
        let mut alike: Option<Alike> = None;
        for run in placed.runs() {
            let stretches = stretches(card, &run);
            let mark = same_mark(card, &run, &stretches);
            match (&mut alike, mark) {
                (Some(before), Some(mark)) if before.mark == mark => {
                    before.last = run;
                    before.runs += 1;
                    continue;
                }
                _ => lines.extend(alike.take().into_iter().flat_map(alike_lines)),
            }
            match mark {
                Some(mark) => alike = Some(Alike::of(run, mark)),
                None => lines.extend(run_lines(card, &run, &stretches)),
            }
        }
        lines.extend(alike.into_iter().flat_map(alike_lines));
    }
    lines
}

/// The mark of all pages of a run, if it is one and all is at home.
fn same_mark(card: &Started, run: &Run, stretches: &[Stretch]) -> Option<Mark> {
    match stretches {
        [one] if one.in_area.is_none() && card.in_area(run.pot).is_none() => Some(one.mark),
        _ => None,
    }
}

impl Alike {
    fn of(run: Run, mark: Mark) -> Alike {
        Alike {
            runs: 1,
            first: run,
            last: run,
            mark,
        }
    }
}

/// One run is a pot and its pages; several are one line.
fn alike_lines(alike: Alike) -> Vec<Line> {
    let Alike {
        runs,
        first,
        last,
        mark,
    } = alike;
    let (first_page, last_page) = (first.page(0), last.page(last.pages - 1));
    let oids = oids(first.first, last.last_oid());
    let marked = mark.said();
    if runs > 1 {
        return vec![Line {
            first: first.pot,
            last: last_page,
            what: format!("home, {runs} pots, and {oids}: {marked}"),
        }];
    }
    vec![
        Line {
            first: first.pot,
            last: first.pot,
            what: format!("home, {}", first.pot_said()),
        },
        Line {
            first: first_page,
            last: last_page,
            what: format!("home, {oids}: {marked}"),
        },
    ]
}

fn run_lines(card: &Started, run: &Run, stretches: &[Stretch]) -> Vec<Line> {
    let pot_line = Line {
        first: run.pot,
        last: run.pot,
        what: format!(
            "home, {}{}",
            run.pot_said(),
            committed(card.in_area(run.pot))
        ),
    };
    let pages = stretches.iter().map(|stretch| {
        let oids = oids(run.oid(stretch.first), run.oid(stretch.last));
        let (marked, committed) = (stretch.mark.said(), committed(stretch.in_area));
        Line {
            first: run.page(stretch.first),
            last: run.page(stretch.last),
            what: format!("home, {oids}: {marked}{committed}"),
        }
    });
    std::iter::once(pot_line).chain(pages).collect()
}

fn committed(in_area: Option<usize>) -> String {
    in_area.map_or_else(String::new, |block| {
        format!("; committed in area block {block}")
    })
}
