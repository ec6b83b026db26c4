//! Opening a file or a device: past the page cache, locked, and asked what it promises.

use super::sys;
use super::{Doing, Error, Promise, Unkept};
use std::fs::{self, File, Metadata, OpenOptions, TryLockError};
use std::io;
use std::os::unix::fs::{FileTypeExt, MetadataExt, OpenOptionsExt};
use std::path::Path;

// x86-64 Linux's numbers: past the page cache, and of a block device alone.
const O_DIRECT: i32 = 0o40000;
const O_EXCL: i32 = 0o200;
/// Bytes that must go down as one.
const SECTOR: u32 = 512;
/// File systems that write in place: ext2 to ext4, xfs, vfat, exfat.
const IN_PLACE: [i64; 4] = [0xEF53, 0x5846_5342, 0x4D44, 0x2011_BAB0];

/// A file or a block device that is open and locked.
pub struct Opened {
    pub file: File,
    pub device: bool,
    /// The number of the device that its blocks are on. Memory and network file systems have none,
    /// and a major number of 0.
    pub below: u64,
    /// Do blocks go past the page cache, to a device?
    pub past_the_cache: bool,
}

impl Opened {
    /// Without O_DIRECT only for `Kill`.
    ///
    /// # Errors
    ///
    /// [`Error::Drive`], [`Error::Busy`], [`Error::Promise`].
    pub fn new(path: &Path, promise: Promise) -> Result<Opened, Error> {
        let (found, direct) = match (direct(path), promise) {
            (Err(Error::Promise(_)), Promise::Kill) => (opened(Found::new(path, 0))?, false),
            (found, _) => (found?, true),
        };
        let Found { file, told } = found;
        lock(&file)?;
        let device = !told.is_file();
        let below = if device { told.rdev() } else { told.dev() };
        Ok(Opened {
            file,
            device,
            below,
            past_the_cache: direct && major(below) != 0,
        })
    }
}

/// Past the page cache, where single blocks can be written there.
fn direct(path: &Path) -> Result<Found, Error> {
    let found = match Found::new(path, O_DIRECT) {
        Err(why) if why.kind() == io::ErrorKind::InvalidInput => return Err(Unkept::Direct.into()),
        found => opened(found)?,
    };
    match sys::direct_length(&found.file) {
        None | Some(1..=SECTOR) => Ok(found),
        Some(_) => Err(Unkept::Direct.into()),
    }
}

/// A device that is in use says so when it is opened.
fn opened(found: io::Result<Found>) -> Result<Found, Error> {
    match found {
        Err(why) if why.kind() == io::ErrorKind::ResourceBusy => Err(Error::Busy),
        found => Doing::Open.told(found),
    }
}

fn lock(file: &File) -> Result<(), Error> {
    match file.try_lock() {
        Ok(()) => Ok(()),
        Err(TryLockError::WouldBlock) => Err(Error::Busy),
        Err(TryLockError::Error(why)) => Doing::Open.told(Err(why)),
    }
}

/// What a path names.
struct Found {
    file: File,
    told: Metadata,
}

impl Found {
    /// A block device is opened for this process alone: one that is mounted, or part of another, is
    /// refused.
    fn new(path: &Path, flags: i32) -> io::Result<Found> {
        let kind = fs::metadata(path)?.file_type();
        if !kind.is_file() && !kind.is_block_device() {
            let why = "neither a file nor a block device";
            return Err(io::Error::new(io::ErrorKind::Unsupported, why));
        }
        let alone = if kind.is_file() { 0 } else { O_EXCL };
        let mut options = OpenOptions::new();
        let options = options.read(true).write(true).custom_flags(flags | alone);
        let file = options.open(path)?;
        let told = file.metadata()?;
        Ok(Found { file, told })
    }
}

/// Asks whether a block goes down by itself, and stays where it is.
pub fn keeps(file: &File, device: bool, below: u64) -> Result<(), Error> {
    if !device {
        let kind = Doing::Open.told(sys::file_system(file))?;
        if !IN_PLACE.contains(&kind) {
            return Err(Unkept::FileSystem(kind).into());
        }
    }
    match Sectors::of(below).ok_or(Unkept::Device)? {
        Sectors {
            logical: SECTOR,
            physical: SECTOR,
        } => Ok(()),
        Sectors { logical, physical } => Err(Unkept::Sector { logical, physical }.into()),
    }
}

/// Bytes of a device's sectors.
struct Sectors {
    logical: u32,
    physical: u32,
}

impl Sectors {
    /// Those that the device's queue tells; a partition has the queue of the device it is part of.
    fn of(device: u64) -> Option<Sectors> {
        let folder = format!("/sys/dev/block/{}:{}", major(device), minor(device));
        let whole = Sectors::of_queue(&format!("{folder}/queue"));
        whole.or_else(|| Sectors::of_queue(&format!("{folder}/../queue")))
    }

    fn of_queue(queue: &str) -> Option<Sectors> {
        let number = |name| {
            let told = fs::read_to_string(format!("{queue}/{name}")).ok()?;
            told.trim().parse().ok()
        };
        Some(Sectors {
            logical: number("logical_block_size")?,
            physical: number("physical_block_size")?,
        })
    }
}

fn major(device: u64) -> u64 {
    (device >> 8) & 0xfff | (device >> 32) & !0xfff
}

fn minor(device: u64) -> u64 {
    device & 0xff | (device >> 12) & 0xffff_ff00
}
