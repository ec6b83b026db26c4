//! A card that the library has started, on a copy in memory: its pages as a start shows them, and
//! where their bytes stand.

use crate::card::{block, size, Entry, Frame, Geometry, Header, Mark, Run, Trailer};
use crate::explain::finding;
use crate::failure::Failure;
use crate::image::Image;
use crate::verdict::Verdict;
use lane::{Key, Refusal, Store, BLOCK};
use std::path::Path;

/// As little memory as the library takes: nothing is written to it.
const MEMORY: [u8; 4 * BLOCK] = [0; 4 * BLOCK];

pub struct Started {
    bytes: Vec<u8>,
    store: Store,
    pub header: Header,
    pub geometry: Geometry,
    pub committed: Option<Committed>,
}

/// The committed generation.
#[derive(Clone, Debug, PartialEq)]
pub struct Committed {
    pub first: usize,
    pub p: usize,
    pub size: usize,
    pub entries: Vec<Entry>,
}

/// What an area block is.
#[derive(Clone, Copy, Debug, PartialEq)]
pub enum Role {
    Page,
    Directory,
    Trailer,
    Free,
}

/// What a start says of an image.
pub fn verdict(image: &Image) -> Verdict {
    Verdict {
        refusal: Store::start(&image.bytes, &MEMORY).err(),
        finding: finding(&image.sight()),
    }
}

impl Started {
    /// A card that a start refuses is explained, as the failure of the command.
    pub fn read(path: &Path) -> Result<Started, Failure> {
        let image = Image::read(path)?;
        let verdict = verdict(&image);
        let refused = |_| Failure::Bad(format!("{}: {verdict}", path.display()));
        Started::start(image).map_err(refused)
    }

    pub fn start(image: Image) -> Result<Started, Refusal> {
        let store = Store::start(&image.bytes, &MEMORY)?;
        let bytes = image.bytes;
        let header = Header::of(block(&bytes, 0));
        let geometry = Geometry::of(&header);
        let committed = Committed::of(&bytes, &header, &geometry);
        Ok(Started {
            bytes,
            store,
            header,
            geometry,
            committed,
        })
    }

    pub fn key(&self, oid: u32) -> Result<Key, Refusal> {
        self.store.key(&self.bytes, &MEMORY, oid)
    }

    pub fn page(&self, key: Key) -> Result<[u8; BLOCK], Refusal> {
        let mut page = [0; BLOCK];
        let answer = self.store.read(&self.bytes, &MEMORY, key, &mut page);
        answer.map(|()| page)
    }

    /// The OIDs of all ranges.
    pub fn oids(&self) -> impl Iterator<Item = u32> + '_ {
        let ranges = self.geometry.ranges.iter();
        ranges.flat_map(|placed| placed.range.first..=placed.last_oid())
    }

    /// The block with a frame's bytes: an area block, or its home.
    pub fn block_of(&self, frame: usize) -> usize {
        self.in_area(frame).unwrap_or(frame)
    }

    /// The area block with a frame's bytes, if the directory has the frame.
    pub fn in_area(&self, frame: usize) -> Option<usize> {
        self.committed.as_ref()?.block_of(frame)
    }

    /// Count and flag of a page.
    pub fn mark(&self, run: &Run, entry: usize) -> Mark {
        Mark::of(block(&self.bytes, self.block_of(run.pot)), entry)
    }

    /// What an area block is.
    pub fn role(&self, block: usize) -> Role {
        let Some(committed) = &self.committed else {
            return Role::Free;
        };
        let on = self.geometry.ring.distance(committed.first, block);
        match on {
            _ if on < committed.p => Role::Page,
            _ if on + 1 < committed.size => Role::Directory,
            _ if on + 1 == committed.size => Role::Trailer,
            _ => Role::Free,
        }
    }

    /// What the directory finds in an area block, in words.
    pub fn said_in(&self, block: usize) -> String {
        let frames = self.frames_in(block);
        let said: Vec<String> = frames.iter().map(|frame| self.entry_said(frame)).collect();
        said.join(", ")
    }

    /// Migration passes over the entry of an empty page.
    fn entry_said(&self, frame: &Frame) -> String {
        let said = frame.said();
        match frame {
            Frame::Page { run, entry } if self.mark(run, *entry).empty => {
                format!("{said}, passed over")
            }
            _ => said,
        }
    }

    /// The frames that the directory finds in an area block: one as a rule, none where it was
    /// written again, several only where something else wrote the directory.
    pub fn frames_in(&self, block: usize) -> Vec<Frame> {
        let entries = self.committed.iter().flat_map(|c| &c.entries);
        let named = entries.filter(|entry| entry.block as usize == block);
        named
            .filter_map(|entry| self.geometry.frame(entry.frame as usize))
            .collect()
    }

    /// Where the next generation begins.
    pub fn next(&self) -> usize {
        let ring = self.geometry.ring;
        self.committed
            .as_ref()
            .map_or(1, |committed| ring.on(committed.first, committed.size))
    }
}

impl Committed {
    /// Of a card that was started: trailer and directory keep questions 6 to 8.
    fn of(card: &[u8], header: &Header, geometry: &Geometry) -> Option<Committed> {
        if header.commit == 0 {
            return None;
        }
        let trailer = Trailer::of(block(card, header.trailer as usize));
        let (first, p) = (trailer.first as usize, trailer.p as usize);
        Some(Committed {
            first,
            p,
            size: size(trailer.p.into(), trailer.e.into()) as usize,
            entries: geometry.ring.entries(card, first, p, trailer.e as usize),
        })
    }

    /// Frames rise in a directory.
    fn block_of(&self, frame: usize) -> Option<usize> {
        let found = self
            .entries
            .binary_search_by_key(&frame, |entry| entry.frame as usize);
        found.ok().map(|i| self.entries[i].block as usize)
    }
}
