//! Reads a card from a file or a block device. Nothing is locked, and nothing is written.

use crate::card::{Header, BLOCKS};
use crate::explain::{told_blocks, Sight};
use crate::failure::Failure;
use lane::BLOCK;
use std::fs::File;
use std::io::{self, Read, Seek, SeekFrom};
use std::os::unix::fs::{FileExt, FileTypeExt};
use std::path::Path;

/// Bytes that are read at most: a block more than a card has, so that start sees that it is too
/// long.
const MOST: u64 = (*BLOCKS.end() + 1) * BLOCK as u64;
/// How often a card that changes meanwhile is read anew.
const TRIES: usize = 8;

/// A card's bytes as they stood at one time.
#[derive(Debug, PartialEq)]
pub struct Image {
    pub bytes: Vec<u8>,
    /// Bytes of the card, or of the file or device where that is longer than any card.
    pub length: u64,
    /// It was read from a device.
    pub device: bool,
}

impl Image {
    pub fn read(path: &Path) -> Result<Image, Failure> {
        let failed = |error: io::Error| Failure::file(path, error);
        let file = File::open(path).map_err(failed)?;
        let kind = file.metadata().map_err(failed)?.file_type();
        if !kind.is_file() && !kind.is_block_device() {
            return Err(Failure::file(path, "neither a file nor a block device"));
        }
        let image = steady(
            || whole(&file, kind.is_block_device()),
            || first_block(&file),
        );
        let changes = || Failure::file(path, "changes while it is read, as a lane commits on it");
        image.map_err(failed)?.ok_or_else(changes)
    }

    /// A whole card in memory.
    pub fn of(bytes: Vec<u8>) -> Image {
        Image {
            length: bytes.len() as u64,
            bytes,
            device: false,
        }
    }

    pub fn sight(&self) -> Sight<'_> {
        Sight {
            bytes: &self.bytes,
            length: self.length,
            device: self.device,
        }
    }
}

/// A lane may be live on the card. Blocks that a start looks at change only once the header names
/// others: what was read is of one commit if the header is still the same behind it.
fn steady(
    mut whole: impl FnMut() -> io::Result<Image>,
    mut header: impl FnMut() -> io::Result<Vec<u8>>,
) -> io::Result<Option<Image>> {
    for _ in 0..TRIES {
        let image = whole()?;
        if image.bytes.starts_with(&header()?) {
            return Ok(Some(image));
        }
    }
    Ok(None)
}

/// Block 0, or what there is of it.
fn first_block(mut file: &File) -> io::Result<Vec<u8>> {
    let mut block = Vec::new();
    file.rewind()?;
    file.take(BLOCK as u64).read_to_end(&mut block)?;
    Ok(block)
}

/// The header is read first: the blocks that it names are then at least as new as it.
fn whole(mut file: &File, device: bool) -> io::Result<Image> {
    let found = file.seek(SeekFrom::End(0))?;
    let length = if device {
        device_length(file, found)?
    } else {
        found
    };
    let mut bytes = vec![0; length.min(MOST) as usize];
    let (first, rest) = bytes.split_at_mut(BLOCK.min(length as usize));
    file.read_exact_at(first, 0)?;
    file.read_exact_at(rest, first.len() as u64)?;
    Ok(Image {
        bytes,
        length,
        device,
    })
}

/// A device may be longer than its card, whose length is then what its header tells.
fn device_length(file: &File, found: u64) -> io::Result<u64> {
    let mut block = [0; BLOCK];
    if found < BLOCK as u64 {
        return Ok(found);
    }
    file.read_exact_at(&mut block, 0)?;
    let told = told_blocks(&Header::of(&block)).map(|blocks| blocks * BLOCK as u64);
    Ok(told.filter(|told| *told <= found).unwrap_or(found))
}

#[cfg(test)]
mod tests {
    use super::*;

    fn image(first: u8) -> Image {
        Image::of(vec![first; 2 * BLOCK])
    }

    #[test]
    fn a_card_whose_header_changes_is_read_again() {
        let (mut read, mut asked) = (0, 0);
        let answer = steady(
            || {
                read += 1;
                Ok(image(read))
            },
            || {
                asked += 1;
                Ok(vec![if asked < 3 { asked + 1 } else { asked }; BLOCK])
            },
        );
        assert_eq!(answer.unwrap(), Some(image(3)));
    }

    #[test]
    fn a_card_that_never_rests_is_given_up() {
        let mut reads = 0;
        let whole = || {
            reads += 1;
            Ok(image(1))
        };
        assert_eq!(steady(whole, || Ok(vec![2; BLOCK])).unwrap(), None);
        assert_eq!(reads, TRIES);
    }
}
