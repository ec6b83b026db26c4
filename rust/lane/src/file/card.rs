use super::sys::Mapping;
use std::fmt;
use std::ops::{Deref, DerefMut};
use std::vec;
use std::vec::Vec;

/// What O_DIRECT asks of memory, at most.
const ALIGNMENT: usize = 4096;

/// A card's bytes in memory: a private mapping of its file, or a buffer. Both begin where a device
/// takes bytes from memory directly.
pub struct Card(Held);

enum Held {
    Mapped(Mapping),
    Buffer { bytes: Vec<u8>, start: usize },
}

impl Card {
    /// A buffer of zeros.
    pub fn zeros(length: usize) -> Card {
        let bytes = vec![0; length + ALIGNMENT];
        let start = bytes.as_ptr().align_offset(ALIGNMENT);
        Card(Held::Buffer { bytes, start })
    }

    pub(super) fn mapped(mapping: Mapping) -> Card {
        Card(Held::Mapped(mapping))
    }
}

impl Deref for Card {
    type Target = [u8];

    fn deref(&self) -> &[u8] {
        match &self.0 {
            Held::Mapped(mapping) => mapping.bytes(),
            Held::Buffer { bytes, start } => &bytes[*start..*start + bytes.len() - ALIGNMENT],
        }
    }
}

impl DerefMut for Card {
    fn deref_mut(&mut self) -> &mut [u8] {
        match &mut self.0 {
            Held::Mapped(mapping) => mapping.bytes_mut(),
            Held::Buffer { bytes, start } => {
                let length = bytes.len() - ALIGNMENT;
                &mut bytes[*start..*start + length]
            }
        }
    }
}

impl fmt::Debug for Card {
    fn fmt(&self, f: &mut fmt::Formatter<'_>) -> fmt::Result {
        let held = match self.0 {
            Held::Mapped(_) => "mapped",
            Held::Buffer { .. } => "buffer",
        };
        write!(f, "Card({held}, {} bytes)", self.len())
    }
}
