use super::drive::{card_length, short_write};
use super::opened::{self, Opened};
use super::sys::{self, Aio, Mapping};
use super::{length, Card, Doing, Drive, Error, Promise, Run};
use crate::BLOCK;
use std::fmt;
use std::fs::{self, File, OpenOptions};
use std::io;
use std::io::{Seek, SeekFrom};
use std::os::unix::fs::FileExt;
use std::path::{Path, PathBuf};

/// A file or a block device, locked for this lane.
///
/// Blocks go past the page cache where there is O_DIRECT, so that a write brings down no neighbour.
pub struct Disk {
    /// Before the file, so that it is removed under its lock.
    unfinished: Unfinished,
    file: File,
    length: u64,
    /// A device may be longer than its card, a file may not.
    device: bool,
    mapped: bool,
    together: Together,
}

/// How several runs of blocks are written.
enum Together {
    /// By as many writes, one after the other.
    No,
    /// All at once, and this is not set up yet.
    Asked,
    Yes(Aio),
}

impl Disk {
    /// Opens a file or a device that a card is on.
    ///
    /// # Errors
    ///
    /// [`Error::Drive`], [`Error::Busy`], [`Error::Promise`].
    pub fn open(path: impl AsRef<Path>, promise: Promise) -> Result<Disk, Error> {
        Disk::take(path.as_ref(), promise, Unfinished::none())
    }

    /// Makes a file for a card of so many bytes, or opens a device. What is there is left as it is,
    /// but for a file that is longer, which is cut.
    ///
    /// # Errors
    ///
    /// As [`open`](Disk::open), and [`Error::Exists`] unless it is to `replace` what is there: a
    /// file that is not empty, a device with other bytes than zeros where the card goes;
    /// [`Error::Length`] if a device is too short. The file that it has made is then removed.
    pub fn create(
        path: impl AsRef<Path>,
        length: u64,
        promise: Promise,
        replace: bool,
    ) -> Result<Disk, Error> {
        let mut disk = Disk::begin(path.as_ref(), length, promise, replace)?;
        disk.keep();
        Ok(disk)
    }

    /// The same, but that a new file is removed with the disk unless it is to be kept.
    pub(super) fn begin(
        path: &Path,
        length: u64,
        promise: Promise,
        replace: bool,
    ) -> Result<Disk, Error> {
        let unfinished = Doing::Open.told(Unfinished::make(path))?;
        let mut disk = Disk::take(path, promise, unfinished)?;
        match disk.fit(path, length, replace) {
            Err(Error::Exists) => {
                disk.keep();
                Err(Error::Exists)
            }
            fits => fits.map(|()| disk),
        }
    }

    /// The file stays, whatever comes.
    pub(super) fn keep(&mut self) {
        self.unfinished.keep();
    }

    fn take(path: &Path, promise: Promise, mut unfinished: Unfinished) -> Result<Disk, Error> {
        let opened = Opened::new(path, promise).inspect_err(|why| {
            if matches!(why, Error::Busy) {
                unfinished.keep();
            }
        })?;
        let mut disk = Disk {
            unfinished,
            length: 0,
            device: opened.device,
            mapped: true,
            together: match opened.past_the_cache {
                true => Together::Asked,
                false => Together::No,
            },
            file: opened.file,
        };
        if promise == Promise::Asked {
            opened::keeps(&disk.file, disk.device, opened.below)?;
        }
        disk.length = Doing::Open.told(disk.file.seek(SeekFrom::End(0)))?;
        Ok(disk)
    }

    /// The card is read whole into a buffer, and not mapped.
    pub fn unmapped(mut self) -> Disk {
        self.mapped = false;
        self
    }

    /// Makes it fit for a card of so many bytes.
    fn fit(&mut self, path: &Path, length: u64, replace: bool) -> Result<(), Error> {
        if self.device && self.length < length {
            return Err(Error::Length {
                found: self.length,
                wanted: length,
            });
        }
        if !replace && self.in_use(length)? {
            return Err(Error::Exists);
        }
        if !self.device {
            Doing::Open.told(self.name_for_good(path, length))?;
        }
        self.length = length;
        Ok(())
    }

    /// Is there something that a format of so many bytes would destroy?
    fn in_use(&mut self, length: u64) -> Result<bool, Error> {
        if !self.device {
            return Ok(self.length > 0);
        }
        let mut bytes = Card::zeros(card_length(length)?);
        Doing::Read.told(self.read(0, &mut bytes))?;
        Ok(bytes.iter().any(|byte| *byte != 0))
    }

    /// A file has its name for good before it has bytes.
    fn name_for_good(&mut self, path: &Path, length: u64) -> io::Result<()> {
        if self.length > length {
            self.file.set_len(length)?;
        }
        let folder = match path.parent() {
            Some(folder) if folder != Path::new("") => folder,
            _ => Path::new("."),
        };
        File::open(folder)?.sync_all()
    }

    /// A file must be as long as its header says; of a device the card's blocks are used.
    fn trim(&mut self, header: &[u8]) -> Result<(), Error> {
        match length::told_by(header) {
            Some(wanted) if self.device && wanted <= self.length => self.length = wanted,
            Some(wanted) if wanted != self.length => {
                return Err(Error::Length {
                    found: self.length,
                    wanted,
                });
            }
            _ => {}
        }
        Ok(())
    }

    /// The private mapping, if there is to be one and the system has it.
    fn mapping(&self, length: usize) -> Option<Card> {
        if !self.mapped || length == 0 {
            return None;
        }
        Mapping::new(&self.file, length).ok().map(Card::mapped)
    }

    fn set_up(&mut self) -> Option<(&mut Aio, &File)> {
        if matches!(self.together, Together::Asked) {
            self.together = Aio::new().map_or(Together::No, Together::Yes);
        }
        match &mut self.together {
            Together::Yes(aio) => Some((aio, &self.file)),
            _ => None,
        }
    }
}

impl Drive for Disk {
    fn length(&self) -> u64 {
        self.length
    }

    fn read(&mut self, at: u64, buffer: &mut [u8]) -> io::Result<()> {
        self.file.read_exact_at(buffer, at)
    }

    /// A short write is a failure; the rest of it is asked for to learn why.
    fn write(&mut self, at: u64, bytes: &[u8]) -> io::Result<()> {
        let written = self.file.write_at(bytes, at)?;
        if written < bytes.len() {
            self.file.write_at(&bytes[written..], at + written as u64)?;
            return Err(short_write());
        }
        Ok(())
    }

    fn flush(&mut self) -> io::Result<()> {
        sys::flush(&self.file)
    }

    fn write_runs(&mut self, card: &[u8], runs: &[Run]) -> io::Result<()> {
        let mut rest = runs;
        if runs.len() > 1 {
            if let Some((aio, file)) = self.set_up() {
                rest = &runs[aio.write(file, card, runs)?..];
            }
        }
        rest.iter()
            .try_for_each(|run| self.write(run.at(), &card[run.bytes()]))
    }

    /// A private mapping where the system has it, so that a start reads the header, the trailer and
    /// the directory alone; else a copy.
    fn card(&mut self) -> Result<Card, Error> {
        if self.device {
            let mut header = Card::zeros(BLOCK);
            Doing::Read.told(self.read(0, &mut header))?;
            self.trim(&header)?;
        }
        let length = card_length(self.length)?;
        let card = match self.mapping(length) {
            Some(card) => card,
            None => {
                let mut card = Card::zeros(length);
                let whole = length - length % BLOCK;
                Doing::Read.told(self.read(0, &mut card[..whole]))?;
                card
            }
        };
        self.trim(&card)?;
        Ok(card)
    }
}

impl fmt::Debug for Disk {
    fn fmt(&self, f: &mut fmt::Formatter<'_>) -> fmt::Result {
        write!(f, "Disk({:?}, {} bytes)", self.file, self.length)
    }
}

/// A file that was made here and has no card yet. It is removed with this.
struct Unfinished(Option<PathBuf>);

impl Unfinished {
    fn none() -> Unfinished {
        Unfinished(None)
    }

    /// Makes an empty file, if there is none.
    fn make(path: &Path) -> io::Result<Unfinished> {
        match OpenOptions::new().write(true).create_new(true).open(path) {
            Err(why) if why.kind() == io::ErrorKind::AlreadyExists => Ok(Unfinished::none()),
            made => made.map(|_| Unfinished(Some(path.to_path_buf()))),
        }
    }

    fn keep(&mut self) {
        self.0 = None;
    }
}

impl Drop for Unfinished {
    fn drop(&mut self) {
        if let Some(path) = &self.0 {
            // What is told is why there is no card, not whether this succeeds.
            let _ = fs::remove_file(path);
        }
    }
}
