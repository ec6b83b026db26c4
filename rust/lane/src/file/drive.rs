use super::{Card, Doing, Error};
use crate::BLOCK;
use std::io;
use std::ops;

/// Neighbouring blocks of a card that go down in one write.
#[derive(Clone, Copy, Debug, Eq, PartialEq)]
pub struct Run {
    /// The first of them.
    pub first: usize,
    /// How many.
    pub blocks: usize,
}

impl Run {
    /// Where the blocks stand on the card, in bytes.
    pub fn bytes(self) -> ops::Range<usize> {
        self.first * BLOCK..(self.first + self.blocks) * BLOCK
    }

    /// Where the first one stands on the drive, in bytes.
    pub fn at(self) -> u64 {
        (self.first * BLOCK) as u64
    }
}

/// What a card is kept on: something that is read, written and flushed.
///
/// At a cut it owes what document 02 asks of a drive: block 0 is whole, old or new; every other block
/// that was not written since the last flush stands as it was. Blocks that were written since then
/// may be down or not, in any order, and may hold any bytes.
///
/// [`Disk`](super::Disk) is one for files and block devices, [`Recorder`](super::Recorder) one for
/// tests.
pub trait Drive {
    /// Bytes of the card.
    fn length(&self) -> u64;

    /// Fills the whole buffer.
    ///
    /// # Errors
    ///
    /// Those of the device.
    fn read(&mut self, at: u64, buffer: &mut [u8]) -> io::Result<()>;

    /// Writes all bytes, whole blocks; less than all is an error. They need not be durable before
    /// the next flush.
    ///
    /// # Errors
    ///
    /// Those of the device.
    fn write(&mut self, at: u64, bytes: &[u8]) -> io::Result<()>;

    /// Makes all that was written before it durable.
    ///
    /// # Errors
    ///
    /// Those of the device.
    fn flush(&mut self) -> io::Result<()>;

    /// Writes these runs of the card's blocks, all of them and no other, in any order.
    ///
    /// # Errors
    ///
    /// Those of the device. Any of the runs may be written then.
    fn write_runs(&mut self, card: &[u8], runs: &[Run]) -> io::Result<()> {
        runs.iter()
            .try_for_each(|run| self.write(run.at(), &card[run.bytes()]))
    }

    /// The card's bytes as memory of this process, here a copy that is read whole.
    ///
    /// # Errors
    ///
    /// Those of the device, and a length that is no card's.
    fn card(&mut self) -> Result<Card, Error> {
        let mut card = Card::zeros(card_length(self.length())?);
        Doing::Read.told(self.read(0, &mut card))?;
        Ok(card)
    }
}

/// A card's length in memory. Longer ones than any card are refused 3 before memory is taken for
/// them.
pub(super) fn card_length(bytes: u64) -> Result<usize, Error> {
    const MOST: usize = 65_536 * BLOCK;
    match usize::try_from(bytes) {
        Ok(length) if length <= MOST => Ok(length),
        _ => Err(crate::Refusal::Card.into()),
    }
}

/// A write that was not done whole, and for which the system gives no reason.
pub(super) fn short_write() -> io::Error {
    io::Error::new(io::ErrorKind::WriteZero, "only a part was written")
}
