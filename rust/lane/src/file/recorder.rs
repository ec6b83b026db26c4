use super::Drive;
use std::io;
use std::vec;
use std::vec::Vec;

/// What a [`Recorder`] was asked for.
#[derive(Clone, Debug, Eq, PartialEq)]
pub enum Event {
    /// A write.
    Write {
        /// Where, in bytes.
        at: u64,
        /// Its bytes.
        bytes: Vec<u8>,
    },
    /// A flush.
    Flush,
}

/// A drive for tests: bytes in memory, with a record of the writes and flushes that were done. At
/// wish it fails.
#[derive(Clone, Debug, Default)]
pub struct Recorder {
    bytes: Vec<u8>,
    events: Vec<Event>,
    /// Reads, writes and flushes that are still done; none is all.
    left: Option<usize>,
}

impl Recorder {
    /// A drive with these bytes.
    pub fn new(bytes: Vec<u8>) -> Recorder {
        Recorder {
            bytes,
            ..Recorder::default()
        }
    }

    /// A drive of so many blocks of zeros.
    pub fn zeros(blocks: usize) -> Recorder {
        Recorder::new(vec![0; blocks * crate::BLOCK])
    }

    /// All bytes as they were written, flushed or not.
    pub fn bytes(&self) -> &[u8] {
        &self.bytes
    }

    /// The writes and flushes that were done.
    pub fn events(&self) -> &[Event] {
        &self.events
    }

    /// Does so many reads, writes and flushes yet; from then on each fails and does nothing.
    pub fn fail_after(&mut self, left: usize) {
        self.left = Some(left);
    }

    fn count(&mut self) -> io::Result<()> {
        match &mut self.left {
            Some(0) => Err(io::Error::other("the drive fails, as it was told to")),
            Some(left) => {
                *left -= 1;
                Ok(())
            }
            None => Ok(()),
        }
    }

    /// The stretch of so many bytes, if it is within the drive.
    fn stretch(&mut self, at: u64, length: usize) -> io::Result<&mut [u8]> {
        let from = usize::try_from(at).ok();
        from.and_then(|from| self.bytes.get_mut(from..from.checked_add(length)?))
            .ok_or_else(|| io::ErrorKind::UnexpectedEof.into())
    }
}

impl Drive for Recorder {
    fn length(&self) -> u64 {
        self.bytes.len() as u64
    }

    fn read(&mut self, at: u64, buffer: &mut [u8]) -> io::Result<()> {
        self.count()?;
        buffer.copy_from_slice(self.stretch(at, buffer.len())?);
        Ok(())
    }

    fn write(&mut self, at: u64, bytes: &[u8]) -> io::Result<()> {
        self.count()?;
        self.stretch(at, bytes.len())?.copy_from_slice(bytes);
        let bytes = bytes.to_vec();
        self.events.push(Event::Write { at, bytes });
        Ok(())
    }

    fn flush(&mut self) -> io::Result<()> {
        self.count()?;
        self.events.push(Event::Flush);
        Ok(())
    }
}
