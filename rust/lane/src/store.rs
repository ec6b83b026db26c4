use crate::c::Record;
use crate::{raw, same_version};
use crate::{Key, Refusal, Report};
use core::fmt;

/// The store of a card that was started: the one record that is lent to each call.
///
/// Lend every call the same card and the same memory, as the last call left them. The store checks
/// their lengths, not whose they are.
///
/// At each call stand the numbers that it may answer, in the order in which their questions are
/// asked; [`Refusal`] has their meanings.
pub struct Store {
    record: Record,
}

impl Store {
    /// Bytes of the record.
    pub const RECORD: usize = size_of::<Record>();

    /// Reads what a formatted card holds. Memory is 4 to 64 frames, with any bytes.
    ///
    /// Pages and counts are those of the last snapshot whose header write reached the card.
    ///
    /// # Errors
    ///
    /// [`Memory`](Refusal::Memory) 1, [`Card`](Refusal::Card) 3, [`Layout`](Refusal::Layout) 4,
    /// [`Geometry`](Refusal::Geometry) 5, [`Commit`](Refusal::Commit) 6,
    /// [`Trailer`](Refusal::Trailer) 7, [`Directory`](Refusal::Directory) 8.
    ///
    /// # Panics
    ///
    /// If the library's version is not [`VERSION`](crate::VERSION).
    pub fn start(card: &[u8], memory: &[u8]) -> Result<Store, Refusal> {
        same_version(raw::version());
        let mut record = raw::zeros();
        Refusal::done(raw::start(&mut record, card, memory))?;
        Ok(Store { record })
    }

    /// Gives the key to a page: its OID with the present count.
    ///
    /// # Errors
    ///
    /// [`Memory`](Refusal::Memory) 1, [`Record`](Refusal::Record) 2, [`Card`](Refusal::Card) 3,
    /// [`Gap`](Refusal::Gap) 21, [`Oid`](Refusal::Oid) 9.
    pub fn key(&self, card: &[u8], memory: &[u8], oid: u32) -> Result<Key, Refusal> {
        let present = raw::key(&self.record, card, memory, oid);
        Refusal::done(present.refusal)?;
        let count = present.count;
        Ok(Key { oid, count })
    }

    /// Fills a buffer with a page. A buffer of another length than a page is refused 11.
    ///
    /// # Errors
    ///
    /// [`Memory`](Refusal::Memory) 1, [`Record`](Refusal::Record) 2, [`Card`](Refusal::Card) 3,
    /// [`Gap`](Refusal::Gap) 21, [`Oid`](Refusal::Oid) 9, [`Count`](Refusal::Count) 10,
    /// [`Length`](Refusal::Length) 11.
    pub fn read(
        &self,
        card: &[u8],
        memory: &[u8],
        key: Key,
        buffer: &mut [u8],
    ) -> Result<(), Refusal> {
        Refusal::done(raw::read(&self.record, card, memory, key, buffer))
    }

    /// Puts bytes into a page at an offset. No bytes change nothing.
    ///
    /// # Errors
    ///
    /// [`Memory`](Refusal::Memory) 1, [`Record`](Refusal::Record) 2, [`Card`](Refusal::Card) 3,
    /// [`Gap`](Refusal::Gap) 21, [`Oid`](Refusal::Oid) 9, [`Count`](Refusal::Count) 10,
    /// [`Length`](Refusal::Length) 11, [`GenerationFull`](Refusal::GenerationFull) 12,
    /// [`AreaFull`](Refusal::AreaFull) 13, [`MemoryFull`](Refusal::MemoryFull) 14.
    pub fn write(
        &mut self,
        card: &[u8],
        memory: &mut [u8],
        key: Key,
        at: usize,
        bytes: &[u8],
    ) -> Result<(), Refusal> {
        Refusal::done(raw::write(&mut self.record, card, memory, key, at, bytes))
    }

    /// Empties a page, which then reads as zeros, and adds 1 to its count, so that every key to it is
    /// old. It wipes nothing: the old bytes may stay on the card, in the area and in the page's home
    /// block.
    ///
    /// # Errors
    ///
    /// [`Memory`](Refusal::Memory) 1, [`Record`](Refusal::Record) 2, [`Card`](Refusal::Card) 3,
    /// [`Gap`](Refusal::Gap) 21, [`Oid`](Refusal::Oid) 9, [`Count`](Refusal::Count) 10,
    /// [`CountEnd`](Refusal::CountEnd) 15, [`GenerationFull`](Refusal::GenerationFull) 12,
    /// [`AreaFull`](Refusal::AreaFull) 13, [`MemoryFull`](Refusal::MemoryFull) 14.
    pub fn rescind(&mut self, card: &[u8], memory: &mut [u8], key: Key) -> Result<(), Refusal> {
        Refusal::done(raw::rescind(&mut self.record, card, memory, key))
    }

    /// Marks all pages and counts as they are, to be kept once [`advance`](Store::advance) has
    /// written the header and the flush after it is made.
    ///
    /// # Errors
    ///
    /// [`Memory`](Refusal::Memory) 1, [`Record`](Refusal::Record) 2, [`Card`](Refusal::Card) 3,
    /// [`Pending`](Refusal::Pending) 16, [`Unchanged`](Refusal::Unchanged) 17,
    /// [`CommitEnd`](Refusal::CommitEnd) 18.
    pub fn snapshot(&mut self, card: &[u8], memory: &[u8]) -> Result<(), Refusal> {
        Refusal::done(raw::snapshot(&mut self.record, card, memory))
    }

    /// Writes the oldest waiting frame to the area, which frees its memory frame, and reports it as
    /// [`Report::P`]. Refused 28 until the flush after a start or a header write is made.
    ///
    /// # Errors
    ///
    /// [`Memory`](Refusal::Memory) 1, [`Record`](Refusal::Record) 2, [`Card`](Refusal::Card) 3,
    /// [`FlushDue`](Refusal::FlushDue) 28, [`NoneWaits`](Refusal::NoneWaits) 19.
    pub fn page_out(&mut self, card: &mut [u8], memory: &[u8]) -> Result<Report, Refusal> {
        Report::of(raw::page_out(&mut self.record, card, memory))
    }

    /// Makes the next block write of a commit or of migration, and reports it; or asks for the flush
    /// that comes before it: just before every header write, just after it, and first after a start.
    ///
    /// Migration passes over a page that is empty in the committed generation, one whose flag is set
    /// in its pot as that has it: its home block keeps what it has, any bytes, and no call reads it.
    /// Refused 20, all is home that is to be read there.
    ///
    /// # Errors
    ///
    /// [`Memory`](Refusal::Memory) 1, [`Record`](Refusal::Record) 2, [`Card`](Refusal::Card) 3,
    /// [`NothingDue`](Refusal::NothingDue) 20.
    pub fn advance(&mut self, card: &mut [u8], memory: &[u8]) -> Result<Report, Refusal> {
        Report::of(raw::advance(&mut self.record, card, memory))
    }

    /// Gives how many advances are left until the pending snapshot is safe: up to and with the flush
    /// after its header, each flush counted. With none pending it is 1 while the flush after a start
    /// or a header write is due, else 0.
    ///
    /// Each advance takes one off while it is above 0, and so does a page-out of a pending frame; the
    /// last but one is [`Report::H`], the last [`Report::F`]. Keys, reads, writes, rescinds and
    /// refused calls leave it as it is.
    ///
    /// ```
    /// # use lane::{format, Range, Refusal, Report, Store, BLOCK};
    /// # fn main() -> Result<(), Refusal> {
    /// # let (mut card, mut memory) = ([0; 11 * BLOCK], [0; 4 * BLOCK]);
    /// # format(&mut card, 8, &[Range { first: 100, pages: 1 }])?;
    /// # let mut store = Store::start(&card, &memory)?;
    /// # let key = store.key(&card, &memory, 100)?;
    /// store.write(&card, &mut memory, key, 0, b"paid")?;
    /// store.snapshot(&card, &memory)?;
    /// assert_eq!(store.forecast(&card, &memory)?, 8);
    /// let mut reports = Vec::new();
    /// while store.forecast(&card, &memory)? > 0 {
    ///     reports.push(store.advance(&mut card, &memory)?);
    /// }
    /// assert_eq!(reports.len(), 8);
    /// assert_eq!(reports[6..], [Report::H(0), Report::F(0)]); // no cut takes it away
    /// # Ok(())
    /// # }
    /// ```
    ///
    /// # Errors
    ///
    /// [`Memory`](Refusal::Memory) 1, [`Record`](Refusal::Record) 2, [`Card`](Refusal::Card) 3.
    pub fn forecast(&self, card: &[u8], memory: &[u8]) -> Result<u32, Refusal> {
        let foretold = raw::forecast(&self.record, card, memory);
        Refusal::done(foretold.refusal)?;
        Ok(foretold.advances)
    }
}

impl fmt::Debug for Store {
    fn fmt(&self, f: &mut fmt::Formatter<'_>) -> fmt::Result {
        f.debug_struct("Store").finish_non_exhaustive()
    }
}
