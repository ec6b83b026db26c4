//! The system below the layer in C, as far as that calls it: cards are recorded drives, named by
//! paths. Each thread has one, so that trials beside each other do not meet.

mod aio;

pub use aio::{Completion, Request};

use crate::recorded::{How, Outcome, Shared};
use crate::rng::Rng;
use aio::Flight;
use std::cell::RefCell;
use std::collections::BTreeMap;

/// Numbers of x86-64 Linux.
pub const EIO: i32 = 5;
const EINTR: i32 = 4;
const EAGAIN: i32 = 11;
const ENOENT: i32 = 2;
const EBADF: i32 = 9;
const EEXIST: i32 = 17;
const ENODEV: i32 = 19;
const EINVAL: i32 = 22;
pub const ENOSYS: i32 = 38;
const O_CREAT: i32 = 0o100;
const O_EXCL: i32 = 0o200;
const O_DIRECT: i32 = 0o40000;
const O_DIRECTORY: i32 = 0o200000;

/// An error number.
pub type Told<T> = Result<T, i32>;

/// The first of all file numbers, none of them the real system's.
const FIRST_FILE: i32 = 1000;

/// What the system has and how it behaves.
#[derive(Clone, Copy, Debug, Default)]
pub struct Setting {
    /// Cards are on block devices, else in files.
    pub device: bool,
    /// The device is a partition, whose sectors stand with its disk.
    pub partition: bool,
    /// Has it no AIO?
    pub no_aio: bool,
    /// Does mmap fail?
    pub no_mmap: bool,
    /// Reads give half of what is asked for, where that is whole blocks.
    pub short_reads: bool,
    /// Does it tell which blocks go past the page cache?
    pub tells_blocks: bool,
}

enum Open {
    Card {
        path: String,
        direct: bool,
    },
    /// A file with a sector's size.
    Sector,
    Folder,
}

/// What stands under a path.
struct Place {
    record: Shared,
    locked: bool,
    exists: bool,
    /// Was its folder synced since it was made?
    synced: bool,
}

pub struct Status {
    pub device: bool,
    pub length: usize,
}

pub struct System {
    setting: Setting,
    places: BTreeMap<String, Place>,
    open: BTreeMap<i32, Open>,
    contexts: BTreeMap<u64, Vec<Flight>>,
    /// Where mappings begin, and their lengths.
    mappings: BTreeMap<usize, usize>,
    /// Numbers that were given to files, contexts and paths.
    given: i32,
    /// Writes that were begun while others were under way.
    together: u64,
    rng: Rng,
}

thread_local! {
    static SYSTEM: RefCell<System> = RefCell::new(System::new());
}

/// Does something with the thread's system.
pub fn with<T>(f: impl FnOnce(&mut System) -> T) -> T {
    SYSTEM.with(|system| f(&mut system.borrow_mut()))
}

/// A path under which a record stands, until this is dropped.
pub struct Named(String);

impl Named {
    /// With `exists` there is a file, else there may be one to be made.
    pub fn new(setting: Setting, record: &Shared, exists: bool) -> Named {
        Named(with(|system| system.put(setting, record, exists)))
    }

    pub fn path(&self) -> &str {
        &self.0
    }

    pub fn exists(&self) -> bool {
        with(|system| system.places[&self.0].exists)
    }

    /// Does its folder know of it for good?
    pub fn is_safe(&self) -> bool {
        with(|system| system.places[&self.0].synced)
    }
}

impl Drop for Named {
    fn drop(&mut self) {
        with(|system| system.places.remove(&self.0));
    }
}

impl System {
    fn new() -> System {
        System {
            setting: Setting::default(),
            places: BTreeMap::new(),
            open: BTreeMap::new(),
            contexts: BTreeMap::new(),
            mappings: BTreeMap::new(),
            given: FIRST_FILE,
            together: 0,
            rng: Rng::new(1),
        }
    }

    /// Chance in what is told of AIO.
    pub fn seed(&mut self, seed: u64) {
        self.rng = Rng::new(seed);
    }

    fn number(&mut self) -> i32 {
        self.given += 1;
        self.given
    }

    /// Puts a record under a path of its own.
    fn put(&mut self, setting: Setting, record: &Shared, exists: bool) -> String {
        self.setting = setting;
        let path = format!("/cards/{}", self.number());
        let place = Place {
            record: record.clone(),
            locked: false,
            exists,
            synced: exists,
        };
        self.places.insert(path.clone(), place);
        path
    }

    /// Files, contexts and mappings that are left.
    #[cfg(test)]
    pub fn held(&self) -> usize {
        self.open.len() + self.contexts.len() + self.mappings.len()
    }

    pub fn open(&mut self, path: &str, flags: i32) -> Told<i32> {
        let file = match path.strip_prefix("/sys/dev/block/") {
            Some(rest) if rest.contains("../") == self.setting.partition => Open::Sector,
            Some(_) => return Err(ENOENT),
            None if flags & O_DIRECTORY != 0 => Open::Folder,
            None => self.open_card(path, flags)?,
        };
        let number = self.number();
        self.open.insert(number, file);
        Ok(number)
    }

    fn open_card(&mut self, path: &str, flags: i32) -> Told<Open> {
        let place = self.places.get_mut(path).ok_or(ENOENT)?;
        match (place.exists, flags & O_CREAT != 0, flags & O_EXCL != 0) {
            (true, true, true) => return Err(EEXIST),
            (false, false, _) => return Err(ENOENT),
            _ => place.exists = true,
        }
        Ok(Open::Card {
            path: path.to_string(),
            direct: flags & O_DIRECT != 0,
        })
    }

    pub fn close(&mut self, file: i32) -> Told<()> {
        match self.open.remove(&file) {
            Some(Open::Card { path, direct: true }) => {
                if let Some(place) = self.places.get_mut(&path) {
                    place.locked = false;
                }
                Ok(())
            }
            Some(_) => Ok(()),
            None => Err(EBADF),
        }
    }

    pub fn unlink(&mut self, path: &str) -> Told<()> {
        let place = self.places.get_mut(path).ok_or(ENOENT)?;
        place.exists = false;
        Ok(())
    }

    fn path(&self, file: i32) -> Told<(String, bool)> {
        match self.open.get(&file) {
            Some(Open::Card { path, direct }) => Ok((path.clone(), *direct)),
            _ => Err(EBADF),
        }
    }

    fn card(&self, file: i32) -> Told<Shared> {
        let (path, _) = self.path(file)?;
        self.record(&path)
    }

    fn record(&self, path: &str) -> Told<Shared> {
        let place = self.places.get(path).ok_or(EBADF)?;
        Ok(place.record.clone())
    }

    pub fn lock(&mut self, file: i32) -> Told<()> {
        let (path, _) = self.path(file)?;
        let place = self.places.get_mut(&path).ok_or(EBADF)?;
        match std::mem::replace(&mut place.locked, true) {
            true => Err(EAGAIN),
            false => Ok(()),
        }
    }

    pub fn status(&self, file: i32) -> Told<Status> {
        let (path, _) = self.path(file)?;
        self.status_of(&path)
    }

    pub fn status_of(&self, path: &str) -> Told<Status> {
        let there = self.places.get(path).filter(|place| place.exists);
        let length = there.ok_or(ENOENT)?.record.borrow().bytes().len();
        let device = self.setting.device;
        Ok(Status { device, length })
    }

    /// The least length that goes past the page cache.
    pub fn least_block(&self, file: i32) -> Told<u32> {
        self.path(file)?;
        match self.setting.tells_blocks {
            true => Ok(512),
            false => Err(ENOSYS),
        }
    }

    /// Past the page cache whole blocks go to and from aligned memory alone.
    fn aligned(&self, file: i32, at: usize, bytes: &[u8]) -> Told<()> {
        let (_, direct) = self.path(file)?;
        let all = [at, bytes.len(), bytes.as_ptr() as usize];
        match !direct || all.iter().all(|number| number.is_multiple_of(512)) {
            true => Ok(()),
            false => Err(EINVAL),
        }
    }

    pub fn read(&mut self, file: i32, at: usize, buffer: &mut [u8]) -> Told<usize> {
        if let Some(Open::Sector) = self.open.get(&file) {
            buffer[..4].copy_from_slice(b"512\n");
            return Ok(4);
        }
        self.aligned(file, at, buffer)?;
        let record = self.card(file)?;
        let mut length = buffer.len().min(record.borrow().bytes().len() - at);
        if self.setting.short_reads && length.is_multiple_of(1024) {
            length /= 2;
        }
        let outcome = record.borrow_mut().read(at, &mut buffer[..length]);
        match outcome {
            Outcome::Done => Ok(length),
            Outcome::Failed(_) => Err(EIO),
        }
    }

    pub fn write(&mut self, file: i32, at: usize, bytes: &[u8]) -> Told<usize> {
        self.aligned(file, at, bytes)?;
        let record = self.card(file)?;
        self.lengthen(&record, at + bytes.len());
        let outcome = record.borrow_mut().write(at, bytes);
        match written(outcome, bytes.len()) {
            result if result < 0 => Err(-result as i32),
            result => Ok(result as usize),
        }
    }

    /// A write behind a file's end makes it longer.
    fn lengthen(&self, record: &Shared, end: usize) {
        let length = record.borrow().bytes().len();
        if !self.setting.device && end > length {
            record.borrow_mut().make_length(end);
        }
    }

    /// What is under way is not flushed.
    pub fn sync(&mut self, file: i32) -> Told<()> {
        if let Some(Open::Folder) = self.open.get(&file) {
            for place in self.places.values_mut() {
                place.synced = place.exists;
            }
            return Ok(());
        }
        let record = self.card(file)?;
        if self.in_flight() > 0 {
            let what = "a flush while writes are under way".to_string();
            record.borrow_mut().wrong(what);
        }
        let outcome = record.borrow_mut().flush();
        match outcome {
            Outcome::Done => Ok(()),
            Outcome::Failed(_) => Err(EIO),
        }
    }

    /// A mapping was made at this place.
    pub fn mapped(&mut self, at: usize, length: usize) {
        self.mappings.insert(at, length);
    }

    /// The mapping at this place is given up. Is it one of this length?
    pub fn unmapped(&mut self, at: usize, length: usize) -> bool {
        self.mappings.remove(&at) == Some(length)
    }

    pub fn truncate(&mut self, file: i32, length: usize) -> Told<()> {
        self.card(file)?.borrow_mut().make_length(length);
        Ok(())
    }

    /// A copy of the card's first bytes.
    pub fn map(&mut self, file: i32, length: usize) -> Told<Vec<u8>> {
        let record = self.card(file)?;
        let bytes = record.borrow().bytes().get(..length).map(<[u8]>::to_vec);
        match self.setting.no_mmap {
            true => Err(ENODEV),
            false => bytes.ok_or(EINVAL),
        }
    }
}

/// What the system tells of a write: its bytes, or an error below 0.
fn written(outcome: Outcome, length: usize) -> i64 {
    match outcome {
        Outcome::Done => length as i64,
        Outcome::Failed(How::Short(down)) => down as i64,
        Outcome::Failed(How::Refused) => -i64::from(EAGAIN),
        Outcome::Failed(How::Error | How::Untold) => -i64::from(EIO),
    }
}
