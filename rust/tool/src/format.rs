//! `lane format`: an empty card.

use crate::arguments::{usage, Arguments};
use crate::exported::parse_range;
use crate::failure::Failure;
use crate::making::{promise, Making};
use crate::output::Output;
use lane::Range;

pub fn run(arguments: &Arguments) -> Result<(), Failure> {
    let area = arguments.value_number("--area")?;
    let ranges = ranges(arguments)?;
    let making = Making {
        path: arguments.path(0),
        area: area.ok_or_else(|| usage("--area is missing"))?,
        ranges: &ranges,
        replace: arguments.has("--replace"),
        promise: promise(arguments)?,
    };
    making.create()?;
    let mut out = Output::standard();
    let (path, said) = (making.path.display(), making.said());
    out.line(format_args!("formatted {path}: {said}"))?;
    out.finish()
}

fn ranges(arguments: &Arguments) -> Result<Vec<Range>, Failure> {
    let range = |word| {
        let why = || usage(format!("--range is FIRST:PAGES, not {word}"));
        parse_range(word).ok_or_else(why)
    };
    let ranges: Vec<Range> = arguments
        .values("--range")
        .map(range)
        .collect::<Result<_, _>>()?;
    if ranges.is_empty() {
        return Err(usage("--range is missing"));
    }
    Ok(ranges)
}
