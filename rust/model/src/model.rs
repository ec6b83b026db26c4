//! The calls, with the questions asked of each in document 01's order.

use crate::blocks::{self, number, put_number, Block};
use crate::geometry::{card_blocks, memory_frames, Geometry, Place, BLOCK};
use crate::start::start;
use crate::store::{Kind, Store};
use crate::{Refusal, LAST_NUMBER};

/// How many bytes of card and memory are lent to a call.
#[derive(Clone, Copy, Debug, PartialEq, Eq)]
pub struct Lent {
    pub card: usize,
    pub memory: usize,
}

/// A card and what the record says of it; a record of zeros says nothing.
#[derive(Clone, Debug)]
pub struct Model {
    pub card: Vec<u8>,
    pub store: Option<Store>,
}

/// Bit 0 of a page's flags: the page is all zeros.
const ZEROS: u8 = 1;

/// A pot and where in it a page's count and flags stand.
struct Pot {
    place: Place,
    bytes: Block,
}

impl Pot {
    fn count(&self) -> u32 {
        number(&self.bytes, self.place.at)
    }

    fn flag(&self) -> bool {
        self.bytes[self.place.at + 4] & ZEROS != 0
    }
}

impl Model {
    pub fn new(card: Vec<u8>) -> Model {
        Model { card, store: None }
    }

    /// Writes each pot, then the header, and no other block.
    pub fn format(&mut self, card: usize, area: usize, ranges: &[u32]) -> Result<(), Refusal> {
        let blocks = card_blocks(card.min(self.card.len())).ok_or(3u32)?;
        let geometry = Geometry::new(blocks, area, ranges).ok_or(5u32)?;
        for pot in geometry.pots() {
            blocks::put(&mut self.card, pot, &blocks::fresh_pot());
        }
        blocks::put(&mut self.card, 0, &blocks::header(&geometry, 0, 0));
        Ok(())
    }

    /// Takes no earlier record; refused, it leaves one of zeros.
    pub fn start(&mut self, lent: Lent) -> Result<(), Refusal> {
        self.store = None;
        let memory = memory_frames(lent.memory).ok_or(1u32)?;
        let blocks = card_blocks(lent.card.min(self.card.len())).ok_or(3u32)?;
        self.store = Some(start(&self.card, blocks, memory)?);
        Ok(())
    }

    /// Questions 1 to 3 after start. The model's record holds together, so it
    /// never answers 2.
    fn asked(&self, lent: Lent) -> Result<&Store, Refusal> {
        let store = self.store.as_ref().ok_or(1u32)?;
        if memory_frames(lent.memory) != Some(store.memory) {
            return Err(1);
        }
        if card_blocks(lent.card) != Some(store.geometry.blocks) {
            return Err(3);
        }
        Ok(store)
    }

    /// The same for a call that changes the record or the card.
    fn asked_to_change(&mut self, lent: Lent) -> Result<(&mut Store, &mut [u8]), Refusal> {
        self.asked(lent)?;
        let store = self.store.as_mut().ok_or(1u32)?;
        Ok((store, &mut self.card))
    }

    /// Questions 1 to 3, 21 and 9.
    fn pot(&self, lent: Lent, oid: u32) -> Result<Pot, Refusal> {
        let store = self.asked(lent)?;
        let place = store.geometry.place(oid)?;
        let bytes = store.newest(&self.card, place.pot);
        Ok(Pot { place, bytes })
    }

    /// Questions 1 to 3, 21, 9 and 10.
    fn pot_for_key(&self, lent: Lent, oid: u32, count: u32) -> Result<Pot, Refusal> {
        let pot = self.pot(lent, oid)?;
        if pot.count() != count {
            return Err(10);
        }
        Ok(pot)
    }

    /// The page's bytes, zeros if the flag is set.
    fn page(&self, lent: Lent, pot: &Pot) -> Result<Block, Refusal> {
        if pot.flag() {
            return Ok([0; BLOCK]);
        }
        Ok(self.asked(lent)?.newest(&self.card, pot.place.page))
    }

    /// The present count.
    pub fn key(&self, lent: Lent, oid: u32) -> Result<u32, Refusal> {
        Ok(self.pot(lent, oid)?.count())
    }

    /// What fills a buffer of that length.
    pub fn read(&self, lent: Lent, oid: u32, count: u32, buffer: usize) -> Result<Block, Refusal> {
        let pot = self.pot_for_key(lent, oid, count)?;
        if buffer != BLOCK {
            return Err(11);
        }
        self.page(lent, &pot)
    }

    /// The page changes first, then, if the flag was set, the pot.
    pub fn write(
        &mut self,
        lent: Lent,
        oid: u32,
        count: u32,
        at: usize,
        bytes: &[u8],
    ) -> Result<(), Refusal> {
        let mut pot = self.pot_for_key(lent, oid, count)?;
        let end = at.checked_add(bytes.len()).ok_or(11u32)?;
        if end > BLOCK {
            return Err(11);
        }
        if bytes.is_empty() {
            return Ok(());
        }
        let mut page = self.page(lent, &pot)?;
        page[at..end].copy_from_slice(bytes);
        let mut changed = vec![(pot.place.page, page)];
        if pot.flag() {
            pot.bytes[pot.place.at + 4] &= !ZEROS;
            changed.push((pot.place.pot, pot.bytes));
        }
        self.asked_to_change(lent)?.0.change(&changed)
    }

    /// Adds 1 to the count and sets the flag; only the pot changes.
    pub fn rescind(&mut self, lent: Lent, oid: u32, count: u32) -> Result<(), Refusal> {
        let mut pot = self.pot_for_key(lent, oid, count)?;
        if count == LAST_NUMBER {
            return Err(15);
        }
        put_number(&mut pot.bytes, pot.place.at, count + 1);
        pot.bytes[pot.place.at + 4] |= ZEROS;
        let changed = [(pot.place.pot, pot.bytes)];
        self.asked_to_change(lent)?.0.change(&changed)
    }

    pub fn snapshot(&mut self, lent: Lent) -> Result<(), Refusal> {
        self.asked_to_change(lent)?.0.snapshot()
    }

    /// Done, it says which block it wrote.
    pub fn page_out(&mut self, lent: Lent) -> Result<usize, Refusal> {
        let (store, card) = self.asked_to_change(lent)?;
        store.page_out(card)
    }

    /// The committed frames that M passes over: each page whose flag is set in
    /// the committed generation's view of its pot.
    pub fn passed_over(&self) -> Vec<usize> {
        let Some(store) = &self.store else {
            return Vec::new();
        };
        let committed = store.committed.iter();
        let frames = committed.flat_map(|committed| committed.entries.iter().map(|entry| entry.0));
        frames
            .filter(|frame| self.is_kept_empty(store, *frame))
            .collect()
    }

    /// Is it a page that start would show as zeros?
    fn is_kept_empty(&self, store: &Store, frame: usize) -> bool {
        let Some(place) = store.geometry.page_at(frame) else {
            return false;
        };
        let bytes = blocks::get(&self.card, store.kept_block(place.pot));
        Pot { place, bytes }.flag()
    }

    /// The kind that advance makes next, if one is due.
    pub fn due(&self) -> Option<Kind> {
        self.store.as_ref()?.due(&self.passed_over())
    }

    /// How many advances until the pending snapshot is safe; with none pending,
    /// until a flush that is owed is made. It changes nothing.
    pub fn forecast(&self, lent: Lent) -> Result<usize, Refusal> {
        let store = self.asked(lent)?;
        Ok(match &store.pending {
            Some(pending) => store.until_safe(pending, &self.passed_over()),
            None => store.owed(),
        })
    }

    /// Done, it says the kind and the block it wrote, 0 for a flush.
    pub fn advance(&mut self, lent: Lent) -> Result<(Kind, usize), Refusal> {
        self.advance_past(lent, &self.passed_over())
    }

    /// An advance that is told which frames M passes over.
    pub fn advance_past(&mut self, lent: Lent, over: &[usize]) -> Result<(Kind, usize), Refusal> {
        let (store, card) = self.asked_to_change(lent)?;
        store.advance(card, over)
    }
}
