//! `lane page`: one page, as a start shows it.

use crate::arguments::Arguments;
use crate::card::Geometry;
use crate::failure::Failure;
use crate::hex;
use crate::output::Output;
use crate::started::Started;
use crate::text::span;
use lane::Refusal;

pub fn run(arguments: &Arguments) -> Result<(), Failure> {
    let oid: u32 = arguments.number(1, "OID")?;
    let card = Started::read(arguments.path(0))?;
    let key = card
        .key(oid)
        .map_err(|refusal| unknown(oid, refusal, &card.geometry))?;
    let refused = |refusal: Refusal| Failure::Bad(refusal.to_string());
    let page = card.page(key).map_err(refused)?;
    let mut out = Output::standard();
    out.line(format_args!("OID     {oid}"))?;
    out.line(format_args!("count   {}", key.count))?;
    if let Some((run, entry)) = card.geometry.place(oid) {
        let (page, empty) = (run.page(entry), card.mark(&run, entry).empty);
        let (flag, page) = match empty {
            true => (
                "set",
                format!("empty; home block {page} may hold any bytes"),
            ),
            false => ("clear", stands(&card, page)),
        };
        out.line(format_args!("flag    {flag}"))?;
        out.line(format_args!("pot     {}", stands(&card, run.pot)))?;
        out.line(format_args!("page    {page}"))?;
    }
    out.text(&hex::dump(&page))?;
    out.finish()
}

/// Where a frame's bytes are read.
fn stands(card: &Started, frame: usize) -> String {
    match card.in_area(frame) {
        Some(block) => format!("area block {block}, committed for home block {frame}"),
        None => format!("home block {frame}"),
    }
}

fn unknown(oid: u32, refusal: Refusal, geometry: &Geometry) -> Failure {
    let ranges = geometry.ranges.iter();
    let oids: Vec<String> = ranges
        .map(|placed| span(placed.range.first, placed.last_oid()))
        .collect();
    let number = refusal.number();
    let ranges = oids.join(", ");
    Failure::Bad(format!(
        "{refusal}\n{number}: no OID {oid}, the OIDs are {ranges}"
    ))
}
