use super::gathered::Gathered;
use super::{Card, Disk, Doing, Drive, Error, Options, Room};
use crate::{Key, Range, Refusal, Report, Store, BLOCK};
use std::fmt;
use std::path::Path;
use std::vec;
use std::vec::Vec;

/// A card that is open: its drive, its bytes, memory and the store, in one.
///
/// Pages are read and written by key; [`commit`](Lane::commit) makes all that was written safe. A
/// refused call changes nothing that a read shows.
///
/// Once a write or a flush of the drive has failed, the card in memory is ahead of the drive for
/// good, and no later flush makes that certain: every call is refused ([`Error::Stopped`]) until the
/// card is opened anew, which shows the last commit. Dropping a lane writes nothing: what is not
/// committed is lost, as at a cut.
pub struct Lane<D: Drive = Disk> {
    drive: D,
    card: Card,
    memory: Vec<u8>,
    store: Store,
    gathered: Gathered,
    snapshot: Snapshot,
    room: Room,
    stopped: bool,
}

/// How far the last snapshot is.
#[derive(Clone, Copy, Eq, PartialEq)]
enum Snapshot {
    Safe,
    /// Its header is not written.
    Pending,
    /// Its header is written and not flushed.
    Written,
}

impl Lane {
    /// Makes an empty card in a new file or on a device, with `area` blocks of checkpoint area, and
    /// opens it; [`Options::create`] has more choice.
    ///
    /// # Errors
    ///
    /// Those of [`Options::create`].
    pub fn create(path: impl AsRef<Path>, area: usize, ranges: &[Range]) -> Result<Lane, Error> {
        Options::new().create(path, area, ranges)
    }

    /// Opens the card in a file or on a device; [`Options::open`] has more choice.
    ///
    /// Pages and counts are those of the last commit, and no later cut takes them away.
    ///
    /// # Errors
    ///
    /// Those of [`Options::open`].
    pub fn open(path: impl AsRef<Path>) -> Result<Lane, Error> {
        Options::new().open(path)
    }
}

impl<D: Drive> Lane<D> {
    /// After a start the flush comes first: until then a cut could find the header before.
    pub(super) fn start(mut drive: D, frames: usize, room: Room) -> Result<Lane<D>, Error> {
        let memory = vec![0; frames.saturating_mul(BLOCK).min(65 * BLOCK)];
        let card = drive.card()?;
        let mut lane = Lane {
            store: Store::start(&card, &memory)?,
            drive,
            card,
            memory,
            gathered: Gathered::default(),
            snapshot: Snapshot::Safe,
            room,
            stopped: false,
        };
        lane.step()?;
        Ok(lane)
    }

    /// Gives the key to a page: its OID with the present count.
    ///
    /// # Errors
    ///
    /// [`Refusal::Gap`] 21, [`Refusal::Oid`] 9; [`Error::Stopped`].
    pub fn key(&self, oid: u32) -> Result<Key, Error> {
        self.live()?;
        Ok(self.store.key(&self.card, &self.memory, oid)?)
    }

    /// Reads a page.
    ///
    /// # Errors
    ///
    /// [`Refusal::Gap`] 21, [`Refusal::Oid`] 9, [`Refusal::Count`] 10; [`Error::Stopped`].
    pub fn read(&self, key: Key, page: &mut [u8; BLOCK]) -> Result<(), Error> {
        self.live()?;
        Ok(self.store.read(&self.card, &self.memory, key, page)?)
    }

    /// Puts bytes into a page at an offset.
    ///
    /// # Errors
    ///
    /// [`Refusal::Gap`] 21, [`Refusal::Oid`] 9, [`Refusal::Count`] 10, [`Refusal::Length`] 11, and
    /// where there is no [`Room`], [`Refusal::GenerationFull`] 12, [`Refusal::AreaFull`] 13,
    /// [`Refusal::MemoryFull`] 14; [`Error::Drive`] in making room; [`Error::Stopped`].
    pub fn write(&mut self, key: Key, at: usize, bytes: &[u8]) -> Result<(), Error> {
        self.with_room(|lane| {
            let (card, memory) = (&lane.card, &mut lane.memory);
            lane.store.write(card, memory, key, at, bytes)
        })
    }

    /// Empties a page, which then reads as zeros, and adds 1 to its count, so that every key to it is
    /// old. It wipes nothing: the old bytes may stay on the card.
    ///
    /// # Errors
    ///
    /// As [`write`](Lane::write), but [`Refusal::CountEnd`] 15 in place of 11.
    pub fn rescind(&mut self, key: Key) -> Result<(), Error> {
        self.with_room(|lane| lane.store.rescind(&lane.card, &mut lane.memory, key))
    }

    /// Makes all that was written and rescinded so far safe: done, no cut takes it away. Nothing to
    /// commit is done too.
    ///
    /// # Errors
    ///
    /// [`Refusal::CommitEnd`] 18; [`Error::Drive`], [`Error::Stopped`].
    pub fn commit(&mut self) -> Result<(), Error> {
        self.finish()?;
        match self.snapshot() {
            Err(Error::Refused(Refusal::Unchanged)) => Ok(()),
            answer => answer.and_then(|()| self.finish()),
        }
    }

    /// Marks all pages and counts as they are, to be kept once [`finish`](Lane::finish) is done. What
    /// is written from here on belongs to the next snapshot.
    ///
    /// # Errors
    ///
    /// [`Refusal::Pending`] 16, [`Refusal::Unchanged`] 17, [`Refusal::CommitEnd`] 18;
    /// [`Error::Stopped`].
    pub fn snapshot(&mut self) -> Result<(), Error> {
        self.live()?;
        self.store.snapshot(&self.card, &self.memory)?;
        self.snapshot = Snapshot::Pending;
        Ok(())
    }

    /// Makes the snapshot that is pending safe, up to the flush after its header. With none pending
    /// there is nothing to do.
    ///
    /// # Errors
    ///
    /// [`Error::Drive`], [`Error::Stopped`].
    pub fn finish(&mut self) -> Result<(), Error> {
        self.live()?;
        while self.snapshot != Snapshot::Safe {
            self.step()?.ok_or(Refusal::NothingDue)?;
        }
        Ok(())
    }

    /// Gives how many block writes and flushes are left until the last snapshot is safe, for a
    /// display: [`finish`](Lane::finish) makes exactly so many, [`advance`](Lane::advance) one of
    /// them. 0 where none is pending, since an open has made its flush.
    ///
    /// A write or a rescind leaves the number as it is, unless it makes [`Room`]: what it makes then
    /// may take from it, down to 0. A block that was paged out is counted no more, though it may go
    /// to the drive with the next ones.
    ///
    /// # Errors
    ///
    /// [`Error::Stopped`].
    pub fn forecast(&self) -> Result<u32, Error> {
        self.live()?;
        Ok(self.store.forecast(&self.card, &self.memory)?)
    }

    /// Makes the next block write or flush, for idle time, and reports it; none if nothing is due.
    ///
    /// # Errors
    ///
    /// [`Error::Drive`], [`Error::Stopped`].
    pub fn advance(&mut self) -> Result<Option<Report>, Error> {
        self.live()?;
        let report = self.step()?;
        self.hand_over()?;
        Ok(report)
    }

    /// Makes all block writes and flushes that are due, for idle time: what is pending is safe then,
    /// and the pages of the last commit are home, but for empty ones, which are passed over. So the
    /// next commit finds less to do.
    ///
    /// # Errors
    ///
    /// [`Error::Drive`], [`Error::Stopped`].
    pub fn settle(&mut self) -> Result<(), Error> {
        self.live()?;
        while self.step()?.is_some() {}
        self.hand_over()
    }

    /// The drive.
    pub fn drive(&self) -> &D {
        &self.drive
    }

    /// The drive, to be told something. Whoever writes to it breaks the card.
    pub fn drive_mut(&mut self) -> &mut D {
        &mut self.drive
    }

    /// Gives the drive back, with what it has. What is not committed is lost.
    pub fn into_drive(self) -> D {
        self.drive
    }

    fn live(&self) -> Result<(), Error> {
        if self.stopped {
            return Err(Error::Stopped);
        }
        Ok(())
    }

    /// Makes a call, and where there is no room for it again once there is.
    fn with_room(
        &mut self,
        call: impl Fn(&mut Lane<D>) -> Result<(), Refusal>,
    ) -> Result<(), Error> {
        self.live()?;
        while let Err(refusal) = call(self) {
            self.make_room(refusal)?;
        }
        Ok(())
    }

    /// 13 comes only while a snapshot is pending; and at 12 a commit is enough, since an empty
    /// generation has room for any call.
    fn make_room(&mut self, refusal: Refusal) -> Result<(), Error> {
        match (refusal, self.room) {
            (Refusal::MemoryFull, Room::Make | Room::Commit) => self.page_out(),
            (Refusal::AreaFull, Room::Make | Room::Commit)
                if self.snapshot == Snapshot::Pending =>
            {
                self.finish()
            }
            (Refusal::GenerationFull, Room::Commit) => self.commit(),
            _ => Err(refusal.into()),
        }
    }

    /// Frees a memory frame; or makes the flush that is due first.
    fn page_out(&mut self) -> Result<(), Error> {
        match self.store.page_out(&mut self.card, &self.memory) {
            Err(Refusal::FlushDue) => self.step().map(|_| ()),
            answer => self.carry_out(answer?),
        }
    }

    /// The next advance, if one is due.
    fn step(&mut self) -> Result<Option<Report>, Error> {
        match self.store.advance(&mut self.card, &self.memory) {
            Err(Refusal::NothingDue) => Ok(None),
            answer => {
                let report = answer?;
                self.carry_out(report)?;
                Ok(Some(report))
            }
        }
    }

    fn carry_out(&mut self, report: Report) -> Result<(), Error> {
        match report.block() {
            Some(block) => self.gathered.add(block),
            None => self.flush()?,
        }
        self.snapshot = match (report, self.snapshot) {
            (Report::H(_), _) => Snapshot::Written,
            (Report::F(_), Snapshot::Written) => Snapshot::Safe,
            (_, unchanged) => unchanged,
        };
        Ok(())
    }

    /// All that was gathered is down before the next block is written.
    fn flush(&mut self) -> Result<(), Error> {
        self.hand_over()?;
        let outcome = Doing::Flush.told(self.drive.flush());
        self.stopped = outcome.is_err();
        outcome
    }

    fn hand_over(&mut self) -> Result<(), Error> {
        let written = self.drive.write_runs(&self.card, self.gathered.take());
        let outcome = Doing::Write.told(written);
        self.stopped = outcome.is_err();
        outcome
    }
}

impl<D: Drive + fmt::Debug> fmt::Debug for Lane<D> {
    fn fmt(&self, f: &mut fmt::Formatter<'_>) -> fmt::Result {
        f.debug_struct("Lane")
            .field("drive", &self.drive)
            .field("stopped", &self.stopped)
            .finish_non_exhaustive()
    }
}
