//! The text that export writes and import reads.
//!
//! ```text
//! lane export 1 area 8 range 100:103 range 1000:20
//! page 100 count 0
//! 070000...                                          16 lines of 32 bytes
//! page 104 count 3 zeros
//! end 2
//! ```
//!
//! OIDs rise. A page that is not there is zeros with count 0. The end has the number of pages,
//! so that a text that was cut short is seen.

use crate::failure::Failure;
use crate::hex;
use crate::output::Output;
use crate::started::Started;
use lane::{Key, Range, BLOCK};
use std::iter::Enumerate;
use std::str::Lines;

/// Bytes in a line.
const LINE: usize = 32;
pub const ZEROS: [u8; BLOCK] = [0; BLOCK];

#[derive(Debug, PartialEq)]
pub struct Page {
    pub oid: u32,
    pub count: u32,
    pub bytes: [u8; BLOCK],
}

impl Page {
    /// A page of a card; nothing if it is as after a format.
    pub fn of(card: &Started, oid: u32) -> Result<Option<Page>, lane::Refusal> {
        let Key { count, .. } = card.key(oid)?;
        let bytes = card.page(Key { oid, count })?;
        let page = Page { oid, count, bytes };
        Ok(Some(page).filter(|page| count > 0 || !page.zeros()))
    }

    pub fn zeros(&self) -> bool {
        self.bytes == ZEROS
    }

    pub fn write(&self, out: &mut Output) -> Result<(), Failure> {
        let Page { oid, count, .. } = self;
        if self.zeros() {
            return out.line(format_args!("page {oid} count {count} zeros"));
        }
        out.line(format_args!("page {oid} count {count}"))?;
        for line in self.bytes.chunks(LINE) {
            out.line(format_args!("{}", hex::digits(line)))?;
        }
        Ok(())
    }
}

pub fn write_first(area: u32, ranges: &[Range], out: &mut Output) -> Result<(), Failure> {
    let ranges: Vec<String> = ranges
        .iter()
        .map(|range| format!(" range {}:{}", range.first, range.pages))
        .collect();
    out.line(format_args!("lane export 1 area {area}{}", ranges.concat()))
}

pub fn write_end(pages: usize, out: &mut Output) -> Result<(), Failure> {
    out.line(format_args!("end {pages}"))
}

/// What an export says.
#[derive(Debug, PartialEq)]
pub struct Exported {
    pub area: u32,
    pub ranges: Vec<Range>,
    pub pages: Vec<Page>,
}

impl Exported {
    /// The text, or the line that is wrong and why.
    pub fn parse(text: &str) -> Result<Exported, String> {
        let mut reader = Reader {
            lines: text.lines().enumerate(),
            at: 0,
        };
        reader.exported().map_err(|why| match why {
            Wrong::Line(why) => format!("line {}: {why}", reader.at),
            Wrong::End => "the text has no line \"end\": it was cut short".into(),
        })
    }

    fn has(&self, oid: u32) -> bool {
        let mut ranges = self.ranges.iter();
        ranges.any(|range| range.first <= oid && oid - range.first < range.pages)
    }
}

enum Wrong {
    Line(String),
    End,
}

fn wrong(why: impl Into<String>) -> Wrong {
    Wrong::Line(why.into())
}

struct Reader<'t> {
    lines: Enumerate<Lines<'t>>,
    /// The line that was read last, from 1 on.
    at: usize,
}

impl<'t> Reader<'t> {
    fn line(&mut self) -> Result<&'t str, Wrong> {
        let (i, line) = self.lines.next().ok_or(Wrong::End)?;
        self.at = i + 1;
        Ok(line)
    }

    fn exported(&mut self) -> Result<Exported, Wrong> {
        let mut exported = first(self.line()?)?;
        loop {
            let words: Vec<&str> = self.line()?.split(' ').collect();
            match words[..] {
                ["end", pages] => {
                    self.end(number(pages)?, exported.pages.len())?;
                    return Ok(exported);
                }
                ["page", oid, "count", count] => {
                    let page = self.page(number(oid)?, number(count)?)?;
                    add(&mut exported, page)?;
                }
                ["page", oid, "count", count, "zeros"] => {
                    let (oid, count, bytes) = (number(oid)?, number(count)?, ZEROS);
                    add(&mut exported, Page { oid, count, bytes })?;
                }
                _ => return Err(wrong("neither a page nor the end")),
            }
        }
    }

    fn page(&mut self, oid: u32, count: u32) -> Result<Page, Wrong> {
        let mut bytes = ZEROS;
        for piece in bytes.chunks_mut(LINE) {
            let digits = self.line()?;
            let why = || wrong(format!("not {LINE} bytes as hexadecimal digits"));
            hex::bytes(digits, piece).ok_or_else(why)?;
        }
        Ok(Page { oid, count, bytes })
    }

    fn end(&mut self, said: usize, pages: usize) -> Result<(), Wrong> {
        if said != pages {
            return Err(wrong(format!("the end is of {said} pages, {pages} came")));
        }
        match self.line() {
            Ok(_) => Err(wrong("something behind the end")),
            Err(_) => Ok(()),
        }
    }
}

fn first(line: &str) -> Result<Exported, Wrong> {
    let words: Vec<&str> = line.split(' ').collect();
    let (area, ranges) = match words[..] {
        ["lane", "export", "1", "area", area, ref ranges @ ..] => (number(area)?, ranges),
        ["lane", "export", version, ..] => {
            return Err(wrong(format!("an export of format {version}, not 1")));
        }
        _ => return Err(wrong("not the first line of an export")),
    };
    let range = |pair: &[&str]| match pair {
        ["range", range] => parse_range(range).ok_or_else(|| wrong("no range")),
        _ => Err(wrong("no range")),
    };
    Ok(Exported {
        area,
        ranges: ranges.chunks(2).map(range).collect::<Result<_, _>>()?,
        pages: Vec::new(),
    })
}

/// FIRST:PAGES.
pub fn parse_range(text: &str) -> Option<Range> {
    let (first, pages) = text.split_once(':')?;
    let (first, pages) = (number(first).ok()?, number(pages).ok()?);
    Some(Range { first, pages })
}

fn number<T: std::str::FromStr>(word: &str) -> Result<T, Wrong> {
    let digits = word.bytes().all(|byte| byte.is_ascii_digit());
    let number = word.parse().ok().filter(|_| digits);
    number.ok_or_else(|| wrong(format!("{word} is no number that can be here")))
}

fn add(exported: &mut Exported, page: Page) -> Result<(), Wrong> {
    let oid = page.oid;
    if exported.pages.last().is_some_and(|last| last.oid >= oid) {
        return Err(wrong(format!("OID {oid} does not rise")));
    }
    if !exported.has(oid) {
        return Err(wrong(format!("OID {oid} is in no range")));
    }
    exported.pages.push(page);
    Ok(())
}
