//! `lane import`: a card made of an export.

use crate::arguments::{usage, Arguments};
use crate::exported::{Exported, Page, ZEROS};
use crate::failure::Failure;
use crate::making::{promise, Making};
use crate::output::{apart, Output};
use crate::progress::Progress;
use crate::started::Started;
use crate::text::{counted, pages, thousands};
use lane::file::{Error, Lane};
use lane::{Key, BLOCK};
use std::fs;
use std::path::Path;

/// The highest count that is kept unasked.
const MOST: u32 = 1_000;

/// What becomes of the counts.
#[derive(Clone, Copy, Debug, PartialEq)]
enum Counts {
    /// Kept, where none is above [`MOST`].
    Few,
    Keep,
    Reset,
}

pub fn run(arguments: &Arguments) -> Result<(), Failure> {
    let (image, file) = (arguments.path(0), arguments.path(1));
    let counts = Counts::of(arguments)?;
    apart(file, image)?;
    let exported = read(file)?;
    counts.allow(&exported)?;
    let making = Making {
        path: image,
        area: arguments.value_number("--area")?.unwrap_or(exported.area),
        ranges: &exported.ranges,
        replace: arguments.has("--replace"),
        promise: promise(arguments)?,
    };
    let lane = making.create()?;
    let progress = Progress::new("import", exported.pages.len(), arguments.has("--progress"));
    bring(lane, &exported, counts, progress).map_err(|error| not_whole(image, &error))?;
    let card = Started::read(image)?;
    let otherwise = |why| Failure::Bad(format!("{}: read back: {why}", image.display()));
    compare(&card, &exported, counts).map_err(otherwise)?;
    tell(&making, &exported, counts, &card)
}

impl Counts {
    fn of(arguments: &Arguments) -> Result<Counts, Failure> {
        match arguments.value("--counts") {
            None => Ok(Counts::Few),
            Some("keep") => Ok(Counts::Keep),
            Some("reset") => Ok(Counts::Reset),
            Some(word) => Err(usage(format!("--counts is keep or reset, not {word}"))),
        }
    }

    fn allow(self, exported: &Exported) -> Result<(), Failure> {
        let mut pages = exported.pages.iter();
        let high = pages.find(|page| self == Counts::Few && page.count > MOST);
        let Some(Page { oid, count, .. }) = high else {
            return Ok(());
        };
        let (count, most) = (thousands(count), thousands(MOST));
        Err(Failure::Bad(format!(
            "OID {oid} has count {count}, above {most}: to keep it takes as many rescinds\n\
             --counts keep makes them, --counts reset leaves all counts 0"
        )))
    }

    /// What became of them.
    fn said(self, exported: &Exported) -> String {
        let raised = exported.pages.iter().filter(|page| page.count > 0);
        let (mut rescinds, mut of) = (0, 0);
        for page in raised {
            rescinds += page.count as usize;
            of += 1;
        }
        let of = pages(of);
        match self {
            _ if rescinds == 0 => "all counts are 0".into(),
            Counts::Reset => format!("counts reset: {of} had one above 0"),
            Counts::Few | Counts::Keep => {
                let rescinds = counted(rescinds, "rescind", "rescinds");
                format!("counts kept: {rescinds} of {of}")
            }
        }
    }

    /// The count that a page is to have.
    fn wanted(self, page: &Page) -> u32 {
        match self {
            Counts::Few | Counts::Keep => page.count,
            Counts::Reset => 0,
        }
    }
}

fn read(file: &Path) -> Result<Exported, Failure> {
    let bytes = fs::read(file).map_err(|error| Failure::file(file, error))?;
    let wrong = |why: String| Failure::Bad(format!("{}: {why}", file.display()));
    let text = String::from_utf8(bytes).map_err(|_| wrong("no text".into()))?;
    Exported::parse(&text).map_err(wrong)
}

/// All pages are safe when it is done, and home where they are to be read there.
fn bring(
    mut lane: Lane,
    exported: &Exported,
    counts: Counts,
    mut progress: Progress,
) -> Result<(), Error> {
    for (done, page) in exported.pages.iter().enumerate() {
        let oid = page.oid;
        let wanted = counts.wanted(page);
        for count in 0..wanted {
            lane.rescind(Key { oid, count })?;
        }
        if !page.zeros() {
            let count = wanted;
            lane.write(Key { oid, count }, 0, &page.bytes)?;
        }
        progress.at(done);
    }
    lane.commit()?;
    lane.settle()?;
    progress.end();
    Ok(())
}

fn not_whole(image: &Path, error: &Error) -> Failure {
    let why = format!("{error}\nthe card is not whole: import again, with --replace");
    Failure::file(image, why)
}

/// Every page of the card, also those that the export leaves out.
fn compare(card: &Started, exported: &Exported, counts: Counts) -> Result<(), String> {
    let mut pages = exported.pages.iter().peekable();
    for oid in card.oids() {
        let wanted = match pages.next_if(|page| page.oid == oid) {
            Some(page) => (counts.wanted(page), &page.bytes),
            None => (0, &ZEROS),
        };
        same(card, oid, wanted)?;
    }
    Ok(())
}

fn same(card: &Started, oid: u32, wanted: (u32, &[u8; BLOCK])) -> Result<(), String> {
    let (count, bytes) = wanted;
    let key = card.key(oid).map_err(|refusal| refusal.to_string())?;
    let page = card.page(key).map_err(|refusal| refusal.to_string())?;
    if key.count != count {
        return Err(format!("OID {oid} has count {}, not {count}", key.count));
    }
    match page.iter().zip(bytes).position(|(one, two)| one != two) {
        Some(at) => Err(format!("OID {oid} has another byte {at}")),
        None => Ok(()),
    }
}

fn tell(
    making: &Making,
    exported: &Exported,
    counts: Counts,
    card: &Started,
) -> Result<(), Failure> {
    let mut out = Output::standard();
    let (path, said) = (making.path.display(), making.said());
    let brought = pages(exported.pages.len());
    out.line(format_args!("imported {brought} to {path}: {said}"))?;
    out.line(format_args!("{}", counts.said(exported)))?;
    let commits = counted(card.header.commit as usize, "commit", "commits");
    let all = pages(card.geometry.pages());
    out.line(format_args!("{commits}; {all} read back and compared"))?;
    out.finish()
}

#[cfg(test)]
mod tests {
    use super::*;
    use crate::image::Image;
    use lane::Range;

    const RANGE: Range = Range {
        first: 100,
        pages: 3,
    };

    fn empty() -> Started {
        let mut bytes = vec![0; (1 + 8 + 4) * BLOCK];
        lane::format(&mut bytes, 8, &[RANGE]).unwrap();
        Started::start(Image::of(bytes)).unwrap()
    }

    fn exported(pages: Vec<Page>) -> Exported {
        Exported {
            area: 8,
            ranges: vec![RANGE],
            pages,
        }
    }

    fn difference(oid: u32, count: u32, byte: u8) -> Option<String> {
        let mut bytes = ZEROS;
        bytes[9] = byte;
        let pages = vec![Page { oid, count, bytes }];
        compare(&empty(), &exported(pages), Counts::Keep).err()
    }

    #[test]
    fn what_is_read_back_otherwise_is_told() {
        assert_eq!(difference(101, 0, 0), None);
        let count = "OID 101 has count 0, not 2";
        assert_eq!(difference(101, 2, 0).as_deref(), Some(count));
        let byte = "OID 102 has another byte 9";
        assert_eq!(difference(102, 0, 7).as_deref(), Some(byte));
    }
}
