//! Why a command ends without having done what it was asked, and the status it ends with.

use std::fmt::Display;
use std::io;
use std::path::Path;

#[derive(Debug)]
pub enum Failure {
    /// Refused, or found bad.
    Bad(String),
    /// Found bad, and said so on standard output already.
    Told,
    /// The words of the command line.
    Usage(String),
    /// The system: a file that is not there, not readable, in use.
    System(String),
    /// Whoever reads the output has closed it, and wants no more words.
    Closed,
}

impl Failure {
    pub fn status(&self) -> u8 {
        match self {
            Failure::Bad(_) | Failure::Told => 1,
            Failure::Usage(_) => 2,
            Failure::System(_) | Failure::Closed => 3,
        }
    }

    pub fn text(&self) -> &str {
        match self {
            Failure::Bad(text) | Failure::Usage(text) | Failure::System(text) => text,
            Failure::Told | Failure::Closed => "",
        }
    }

    /// A file that the system does not let the tool use.
    pub fn file(path: &Path, why: impl Display) -> Failure {
        Failure::System(format!("{}: {why}", path.display()))
    }

    /// Output that could not be written.
    pub fn output(name: impl Display, error: &io::Error) -> Failure {
        match error.kind() {
            io::ErrorKind::BrokenPipe => Failure::Closed,
            _ => Failure::System(format!("{name}: {error}")),
        }
    }
}
