use core::error::Error;
use core::fmt;

/// Each refusal with its number and meaning, said once for the enum, its texts and its
/// documentation.
macro_rules! refusals {
    ($($name:ident = $number:literal, $meaning:literal;)*) => {
        /// Why a call was refused: the first of document 01's questions that was answered "no".
        ///
        /// The discriminant is the question's number. Numbers are added as calls are.
        #[derive(Clone, Copy, Debug, Eq, Hash, PartialEq)]
        #[non_exhaustive]
        #[repr(u32)]
        pub enum Refusal {
            $(#[doc = concat!(stringify!($number), ": ", $meaning, ".")] $name = $number,)*
        }

        impl Refusal {
            pub(crate) fn numbered(number: u32) -> Option<Refusal> {
                match number {
                    $($number => Some(Refusal::$name),)*
                    _ => None,
                }
            }

            pub(crate) fn meaning(self) -> &'static str {
                match self {
                    $(Refusal::$name => $meaning,)*
                }
            }
        }
    };
}

refusals! {
    Memory = 1, "memory is not 4 to 64 whole frames, or not as long as the record says";
    Record = 2, "the record does not hold together";
    Card = 3, "the card is not 11 to 65,536 whole blocks, or not as many as the record says";
    Layout = 4, "the layout is not 1";
    Geometry = 5, "A or the ranges break the limits, or do not fill the card exactly";
    Commit = 6, "commit and trailer are not both 0, nor commit above 0 and trailer in 1 to A";
    Trailer = 7, "the trailer is not that commit's, or its numbers do not fit";
    Directory = 8, "entries do not rise, or name no home frame or no block among the p";
    Oid = 9, "the OID is below the first range or above the last";
    Count = 10, "the key's count is not the present one";
    Length = 11, "the buffer is not 512 bytes, or offset + length is above 512";
    GenerationFull = 12, "the current size would be above H, half the area";
    AreaFull = 13, "all three sizes together would be above A";
    MemoryFull = 14, "memory has too few free frames";
    CountEnd = 15, "the count is 4,294,967,295";
    Pending = 16, "a snapshot is pending";
    Unchanged = 17, "no frame has changed since the last snapshot or start";
    CommitEnd = 18, "the commit number is 4,294,967,295";
    NoneWaits = 19, "no frame waits";
    NothingDue = 20, "no block write and no flush is due";
    Gap = 21, "the OID lies between two ranges";
    FlushDue = 28, "the flush after a header write or a start is due";
}

impl Refusal {
    /// Document 01's number of the question.
    pub fn number(self) -> u32 {
        self as u32
    }

    /// The refusal that the library answered. Another number means a library of another version,
    /// with which no answer can be trusted.
    pub(crate) fn of(number: u32) -> Refusal {
        Refusal::numbered(number)
            .unwrap_or_else(|| panic!("liblane.a answers {number}, which this crate does not know"))
    }

    /// Nothing for 0, else the refusal.
    pub(crate) fn done(number: u32) -> Result<(), Refusal> {
        match number {
            0 => Ok(()),
            _ => Err(Refusal::of(number)),
        }
    }
}

impl fmt::Display for Refusal {
    fn fmt(&self, f: &mut fmt::Formatter<'_>) -> fmt::Result {
        write!(f, "refused {}: {}", self.number(), self.meaning())
    }
}

impl Error for Refusal {}
