//! `lane check`: a dry start.

use crate::arguments::Arguments;
use crate::failure::Failure;
use crate::image::Image;
use crate::output::Output;
use crate::started::{verdict, Started};
use crate::text::{counted, pages, thousands};

/// Below so many commits to the last one the card is to be changed.
const FEW: u32 = 100_000_000;

pub fn run(arguments: &Arguments) -> Result<(), Failure> {
    let image = Image::read(arguments.path(0))?;
    let verdict = verdict(&image);
    let mut out = Output::standard();
    match Started::start(image) {
        Ok(card) => accepted(&card, &mut out)?,
        Err(_) => {
            out.line(format_args!("{verdict}"))?;
            out.finish()?;
            return Err(Failure::Told);
        }
    }
    if let Some(defect) = verdict.defect() {
        out.line(format_args!("{defect}"))?;
    }
    out.finish()
}

fn accepted(card: &Started, out: &mut Output) -> Result<(), Failure> {
    let (header, geometry) = (&card.header, &card.geometry);
    let entries = card.committed.as_ref().map_or(0, |c| c.entries.len());
    let said = [
        format!("accepted: commit {}", thousands(header.commit)),
        format!("A {}", header.area),
        counted(geometry.ranges.len(), "range", "ranges"),
        counted(entries, "entry committed", "entries committed"),
        pages(geometry.pages()),
        counted(geometry.blocks(), "block", "blocks"),
    ];
    out.line(format_args!("{}", said.join(", ")))?;
    for (i, placed) in geometry.ranges.iter().enumerate() {
        out.line(format_args!("range {i}: {}", placed.said()))?;
    }
    let left = u32::MAX - header.commit;
    if left < FEW {
        let left = thousands(left);
        out.line(format_args!(
            "{left} commits are left: change the card (export, import)"
        ))?;
    }
    Ok(())
}
