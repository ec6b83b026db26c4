use super::{length, Card, Disk, Doing, Drive, Error, Lane};
use crate::{Range, Refusal, BLOCK};
use std::path::Path;

/// What a write or a rescind does where there is no room for it.
#[derive(Clone, Copy, Debug, Default, Eq, PartialEq)]
pub enum Room {
    /// It is refused 12, 13 or 14.
    Refuse,
    /// It makes room: at 14 by page-outs, at 13 by finishing the snapshot that is pending. It is
    /// refused 12, so that what belongs together is never committed in parts.
    #[default]
    Make,
    /// It makes room at 12 too, and commits what has changed so far: only where each change may be
    /// kept without the next.
    Commit,
}

/// What a drive is asked to promise.
#[derive(Clone, Copy, Debug, Default, Eq, PartialEq)]
pub enum Promise {
    /// The card survives a power cut. There must be O_DIRECT, a block device with sectors of 512
    /// bytes, physical and logical, and, for a file, a file system that is known to write in place:
    /// ext2 to ext4, xfs, vfat, exfat.
    #[default]
    Asked,
    /// The caller vouches that the device puts 512 bytes down as one, and in place. There must be
    /// O_DIRECT.
    Vouched,
    /// The card survives a kill of the program, and has no promise at a power cut.
    Kill,
}

/// How a lane is opened or created.
///
/// ```no_run
/// use lane::file::{Options, Room};
///
/// # fn main() -> Result<(), lane::file::Error> {
/// let lane = Options::new().frames(16).room(Room::Refuse).open("tags.card")?;
/// # Ok(())
/// # }
/// ```
#[derive(Clone, Debug)]
pub struct Options {
    frames: usize,
    room: Room,
    promise: Promise,
    mapped: bool,
    replace: bool,
}

impl Default for Options {
    fn default() -> Options {
        Options {
            frames: 64,
            room: Room::default(),
            promise: Promise::default(),
            mapped: true,
            replace: false,
        }
    }
}

impl Options {
    /// As [`Lane::open`] and [`Lane::create`] have them.
    pub fn new() -> Options {
        Options::default()
    }

    /// Memory frames, where changed pages wait: 4 to 64, else every call is refused 1. 64 if not
    /// set.
    pub fn frames(&mut self, frames: usize) -> &mut Options {
        self.frames = frames;
        self
    }

    /// What a write or a rescind does where there is no room.
    pub fn room(&mut self, room: Room) -> &mut Options {
        self.room = room;
        self
    }

    /// What the drive is asked to promise.
    pub fn promise(&mut self, promise: Promise) -> &mut Options {
        self.promise = promise;
        self
    }

    /// Whether the card is a private mapping of its file, where the system has such. Mapped, an open
    /// reads only what a start looks at, and a page is read when it is asked for; a block that the
    /// device cannot read is then the signal SIGBUS, as with every mapped file. Not mapped, an open
    /// reads the whole card, and fails there. Mapped if not set.
    pub fn mapped(&mut self, mapped: bool) -> &mut Options {
        self.mapped = mapped;
        self
    }

    /// Whether create may format over what is there. Not, if not set.
    pub fn replace(&mut self, replace: bool) -> &mut Options {
        self.replace = replace;
        self
    }

    /// Makes an empty card, with `area` blocks of checkpoint area, in a new file or on a device, and
    /// opens it.
    ///
    /// # Errors
    ///
    /// [`Error::Refused`] 1, 3 or 5, before anything is touched; [`Error::Exists`],
    /// [`Error::Drive`], [`Error::Busy`], [`Error::Promise`], [`Error::Length`]. A new file is then
    /// removed.
    pub fn create(
        &self,
        path: impl AsRef<Path>,
        area: usize,
        ranges: &[Range],
    ) -> Result<Lane, Error> {
        let path = path.as_ref();
        let length = length::of(area, ranges);
        let card = self.formatted(length, area, ranges)?;
        let mut disk = Disk::begin(path, length, self.promise, self.replace)?;
        put(&mut disk, &card)?;
        let mut lane = self.open_disk(disk)?;
        lane.drive_mut().keep();
        Ok(lane)
    }

    /// Opens a card in a file or on a device.
    ///
    /// # Errors
    ///
    /// [`Error::Refused`] 1 or 3 to 8; [`Error::Drive`], [`Error::Busy`], [`Error::Promise`],
    /// [`Error::Length`].
    pub fn open(&self, path: impl AsRef<Path>) -> Result<Lane, Error> {
        self.open_disk(Disk::open(path, self.promise)?)
    }

    /// Makes an empty card on a drive, as long as the drive, and opens it.
    ///
    /// # Errors
    ///
    /// [`Error::Refused`] 1, 3 or 5, before anything is written; [`Error::Drive`].
    pub fn create_on<D: Drive>(
        &self,
        mut drive: D,
        area: usize,
        ranges: &[Range],
    ) -> Result<Lane<D>, Error> {
        let card = self.formatted(drive.length(), area, ranges)?;
        put(&mut drive, &card)?;
        self.open_on(drive)
    }

    /// Opens the card on a drive.
    ///
    /// # Errors
    ///
    /// [`Error::Refused`] 1 or 3 to 8; [`Error::Drive`].
    pub fn open_on<D: Drive>(&self, drive: D) -> Result<Lane<D>, Error> {
        Lane::start(drive, self.frames, self.room)
    }

    fn open_disk(&self, disk: Disk) -> Result<Lane, Error> {
        self.open_on(if self.mapped { disk } else { disk.unmapped() })
    }

    /// An empty card of so many bytes. Memory is asked for too, as the open that follows will: what
    /// is there is not given up for a lane that cannot be opened.
    fn formatted(&self, length: u64, area: usize, ranges: &[Range]) -> Result<Card, Error> {
        if !(4..=64).contains(&self.frames) {
            return Err(Refusal::Memory.into());
        }
        let mut card = Card::zeros(super::drive::card_length(length)?);
        crate::format(&mut card, area, ranges)?;
        Ok(card)
    }
}

/// Block 0 is cleared first and written last: start refuses a card whose format was cut. Every block
/// is written, so that a file has its place on the disk, and later writes change bytes only.
fn put(drive: &mut impl Drive, card: &Card) -> Result<(), Error> {
    let (header, rest) = card.split_at(BLOCK);
    for (at, bytes) in [(0, &Card::zeros(BLOCK)[..]), (BLOCK, rest), (0, header)] {
        Doing::Write.told(drive.write(at as u64, bytes))?;
        Doing::Flush.told(drive.flush())?;
    }
    Ok(())
}
