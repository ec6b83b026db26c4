//! Where a command's text goes: standard output, or the file of --out.

use crate::failure::Failure;
use std::fmt::Arguments;
use std::fs::{self, File};
use std::io::{self, BufWriter, IsTerminal, Write};
use std::os::unix::fs::MetadataExt;
use std::path::Path;

pub struct Output {
    name: String,
    writer: Box<dyn Write>,
    /// Somebody reads it as it comes.
    pub terminal: bool,
}

impl Output {
    pub fn standard() -> Output {
        let stdout = io::stdout();
        Output {
            name: "standard output".into(),
            terminal: stdout.is_terminal(),
            writer: Box::new(BufWriter::new(stdout)),
        }
    }

    /// The file of --out, or standard output. `image` is the card that is read: it is never
    /// written.
    pub fn to(out: Option<&Path>, image: &Path) -> Result<Output, Failure> {
        let Some(path) = out else {
            return Ok(Output::standard());
        };
        apart(path, image)?;
        let file = File::create(path).map_err(|error| Failure::file(path, error))?;
        Ok(Output {
            name: path.display().to_string(),
            terminal: file.is_terminal(),
            writer: Box::new(BufWriter::new(file)),
        })
    }

    pub fn line(&mut self, line: Arguments) -> Result<(), Failure> {
        let answer = writeln!(self.writer, "{line}");
        answer.map_err(|error| Failure::output(&self.name, &error))
    }

    pub fn text(&mut self, text: &str) -> Result<(), Failure> {
        let answer = self.writer.write_all(text.as_bytes());
        answer.map_err(|error| Failure::output(&self.name, &error))
    }

    /// What was not written is told here, and not at a silent drop.
    pub fn finish(mut self) -> Result<(), Failure> {
        let answer = self.writer.flush();
        answer.map_err(|error| Failure::output(&self.name, &error))
    }
}

/// Two names of one file, by hard or symbolic links too, are one file.
pub fn apart(path: &Path, other: &Path) -> Result<(), Failure> {
    let same = match (fs::metadata(path), fs::metadata(other)) {
        (Ok(one), Ok(two)) => (one.dev(), one.ino()) == (two.dev(), two.ino()),
        _ => false,
    };
    if same {
        let (path, other) = (path.display(), other.display());
        return Err(Failure::Usage(format!("{path} and {other} are one file")));
    }
    Ok(())
}
