use crate::c;
use crate::Refusal;
use core::fmt;

/// The block write that an advance or a page-out made, with its block, or the flush that an advance
/// asks for, which reports block 0 and writes none.
#[derive(Clone, Copy, Debug, Eq, Hash, PartialEq)]
#[non_exhaustive]
pub enum Report {
    /// The oldest waiting frame, to the area.
    P(usize),
    /// A block of its directory.
    D(usize),
    /// Its trailer.
    T(usize),
    /// A frame of the committed generation, copied to its home block; never an empty page.
    M(usize),
    /// The header, block 0: the snapshot is safe at the flush after it.
    H(usize),
    /// A flush: the device is to be flushed before the next call, and no block is written.
    F(usize),
}

impl Report {
    /// The block written; none for a flush.
    pub fn block(self) -> Option<usize> {
        match self {
            Report::F(_) => None,
            report => Some(report.parts().1),
        }
    }

    fn parts(self) -> (char, usize) {
        match self {
            Report::P(block) => ('P', block),
            Report::D(block) => ('D', block),
            Report::T(block) => ('T', block),
            Report::M(block) => ('M', block),
            Report::H(block) => ('H', block),
            Report::F(block) => ('F', block),
        }
    }

    pub(crate) fn of(report: c::Report) -> Result<Report, Refusal> {
        let block = report.block;
        match report.kind {
            0 => Err(Refusal::of(report.refusal)),
            1 => Ok(Report::P(block)),
            2 => Ok(Report::D(block)),
            3 => Ok(Report::T(block)),
            4 => Ok(Report::M(block)),
            5 => Ok(Report::H(block)),
            6 => Ok(Report::F(block)),
            kind => panic!("liblane.a reports kind {kind}, which this crate does not know"),
        }
    }
}

impl fmt::Display for Report {
    fn fmt(&self, f: &mut fmt::Formatter<'_>) -> fmt::Result {
        let (kind, block) = self.parts();
        write!(f, "{kind} {block}")
    }
}
