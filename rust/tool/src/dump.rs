//! `lane dump`: header, trailer and directory, and what each block is.

mod listing;

use crate::arguments::Arguments;
use crate::card::{block, directory_blocks, size, Geometry, Header, Trailer};
use crate::failure::Failure;
use crate::image::Image;
use crate::output::Output;
use crate::started::{verdict, Started};
use crate::text::blocks;
use crate::verdict::Verdict;
use lane::BLOCK;

pub fn run(arguments: &Arguments) -> Result<(), Failure> {
    let image = Image::read(arguments.path(0))?;
    let verdict = verdict(&image);
    let mut out = Output::standard();
    numbers(&image, &verdict, &mut out)?;
    if verdict.refusal.is_none() {
        if let Ok(card) = Started::start(image) {
            listing::write(&card, &mut out)?;
        }
        return out.finish();
    }
    out.line(format_args!("{verdict}"))?;
    out.finish()?;
    Err(Failure::Told)
}

/// Header, trailer and directory: as far as the questions before them are answered "yes".
fn numbers(image: &Image, verdict: &Verdict, out: &mut Output) -> Result<(), Failure> {
    const ALL: u32 = 9;
    if image.bytes.len() < BLOCK {
        return Ok(());
    }
    let header = Header::of(block(&image.bytes, 0));
    write_header(&header, out)?;
    let no = verdict.number().unwrap_or(ALL);
    let geometry = Geometry::of(&header);
    if no > 5 {
        write_ranges(&geometry, out)?;
    }
    if no > 6 && header.commit > 0 {
        let trailer = Trailer::of(block(&image.bytes, header.trailer as usize));
        write_trailer(&header, &trailer, out)?;
        if no > 7 {
            write_directory(&image.bytes, &geometry, &trailer, out)?;
        }
    }
    Ok(())
}

fn write_header(header: &Header, out: &mut Output) -> Result<(), Failure> {
    out.line(format_args!("header, block 0"))?;
    for (name, number) in [
        ("layout", header.layout),
        ("commit", header.commit),
        ("trailer", header.trailer),
        ("A", header.area),
        ("ranges", header.count),
    ] {
        out.line(format_args!("  {name:9} {number}"))?;
    }
    for (i, range) in header.ranges.iter().enumerate() {
        let (name, first, n) = (format!("range {i}"), range.first, range.pages);
        out.line(format_args!("  {name:9} first OID {first}, n {n}"))?;
    }
    Ok(())
}

fn write_ranges(geometry: &Geometry, out: &mut Output) -> Result<(), Failure> {
    out.line(format_args!("ranges"))?;
    for (i, placed) in geometry.ranges.iter().enumerate() {
        let name = format!("range {i}");
        out.line(format_args!("  {name:9} {}", placed.said()))?;
    }
    Ok(())
}

fn write_trailer(header: &Header, trailer: &Trailer, out: &mut Output) -> Result<(), Failure> {
    out.line(format_args!("trailer, block {}", header.trailer))?;
    for (name, number) in [
        ("commit", trailer.commit.into()),
        ("first", trailer.first.into()),
        ("p", trailer.p.into()),
        ("e", trailer.e.into()),
        ("size", size(trailer.p.into(), trailer.e.into())),
    ] {
        out.line(format_args!("  {name:9} {number}"))?;
    }
    let half = header.area / 2;
    out.line(format_args!(
        "  {:9} {half}, the most that a size may be",
        "H"
    ))
}

fn write_directory(
    card: &[u8],
    geometry: &Geometry,
    trailer: &Trailer,
    out: &mut Output,
) -> Result<(), Failure> {
    let (first, p, e) = (
        trailer.first as usize,
        trailer.p as usize,
        trailer.e as usize,
    );
    let begins = geometry.ring.on(first, p);
    let ends = geometry
        .ring
        .on(begins, directory_blocks(e as u64) as usize - 1);
    out.line(format_args!("directory, {}", blocks(begins, ends)))?;
    for (i, entry) in geometry.ring.entries(card, first, p, e).iter().enumerate() {
        let name = format!("entry {i}");
        let frame = geometry.frame(entry.frame as usize);
        let frame_said = frame.map_or_else(|| "no home block".into(), |frame| frame.said());
        out.line(format_args!(
            "  {name:9} frame {} in block {}: {frame_said}",
            entry.frame, entry.block
        ))?;
    }
    Ok(())
}
