//! The words of a command line, taken apart.

use crate::failure::Failure;
use std::ffi::{OsStr, OsString};
use std::path::{Path, PathBuf};
use std::str::FromStr;

/// An option that a command knows.
#[derive(Clone, Copy, Debug, PartialEq)]
pub enum Known {
    /// It stands alone.
    Switch(&'static str),
    /// It takes a value, once.
    Value(&'static str),
    /// It takes a value, and may come again.
    Values(&'static str),
}

impl Known {
    fn name(self) -> &'static str {
        match self {
            Known::Switch(name) | Known::Value(name) | Known::Values(name) => name,
        }
    }
}

/// What a command takes.
#[derive(Clone, Copy, Debug)]
pub struct Shape {
    /// Names of the words that are no options, all of them needed.
    pub words: &'static [&'static str],
    pub options: &'static [Known],
}

#[derive(Debug, Default, PartialEq)]
pub struct Arguments {
    words: Vec<OsString>,
    options: Vec<(&'static str, String)>,
    /// --help was among them: nothing else is asked for.
    pub help: bool,
}

impl Arguments {
    pub fn parse(given: &[OsString], shape: &Shape) -> Result<Arguments, Failure> {
        let mut arguments = Arguments::default();
        let mut given = given.iter();
        while let Some(word) = given.next() {
            match word.to_str() {
                Some("--help" | "-h") => arguments.help = true,
                Some("--") => arguments.words.extend(given.by_ref().cloned()),
                Some(option) if option.starts_with("--") => {
                    arguments.option(option, &mut given, shape)?;
                }
                Some(option) if option.len() > 1 && option.starts_with('-') => {
                    return Err(usage(format!("no option {option}")));
                }
                _ => arguments.words.push(word.clone()),
            }
        }
        arguments.all_words(shape)?;
        Ok(arguments)
    }

    /// `--name value` or `--name=value`.
    fn option<'g>(
        &mut self,
        word: &str,
        rest: &mut impl Iterator<Item = &'g OsString>,
        shape: &Shape,
    ) -> Result<(), Failure> {
        let (name, joined) = match word.split_once('=') {
            Some((name, value)) => (name, Some(value.to_string())),
            None => (word, None),
        };
        let known = shape.options.iter().find(|known| known.name() == name);
        let known = *known.ok_or_else(|| usage(format!("no option {name}")))?;
        if !matches!(known, Known::Values(_)) && self.has(name) {
            return Err(usage(format!("{name} twice")));
        }
        let value = match (known, joined) {
            (Known::Switch(_), None) => String::new(),
            (Known::Switch(_), Some(_)) => return Err(usage(format!("{name} takes no value"))),
            (_, Some(value)) => value,
            (_, None) => next_value(name, rest.next())?,
        };
        self.options.push((known.name(), value));
        Ok(())
    }

    fn all_words(&self, shape: &Shape) -> Result<(), Failure> {
        if self.help {
            return Ok(());
        }
        if let Some(missing) = shape.words.get(self.words.len()) {
            return Err(usage(format!("{missing} is missing")));
        }
        match self.words.get(shape.words.len()) {
            Some(more) => Err(usage(format!("{} is a word too many", more.display()))),
            None => Ok(()),
        }
    }

    /// The word at that place of the shape, as a path.
    pub fn path(&self, at: usize) -> &Path {
        Path::new(&self.words[at])
    }

    /// The word at that place of the shape, as a number.
    pub fn number<T: FromStr>(&self, at: usize, name: &str) -> Result<T, Failure> {
        number(name, &self.words[at])
    }

    pub fn has(&self, name: &str) -> bool {
        self.options.iter().any(|(known, _)| *known == name)
    }

    pub fn value(&self, name: &'static str) -> Option<&str> {
        self.values(name).next()
    }

    pub fn values(&self, name: &'static str) -> impl Iterator<Item = &str> {
        let named = self.options.iter().filter(move |(known, _)| *known == name);
        named.map(|(_, value)| value.as_str())
    }

    pub fn value_path(&self, name: &'static str) -> Option<PathBuf> {
        self.value(name).map(PathBuf::from)
    }

    pub fn value_number<T: FromStr>(&self, name: &'static str) -> Result<Option<T>, Failure> {
        self.value(name)
            .map(|value| number(name, value))
            .transpose()
    }
}

pub fn usage(why: impl Into<String>) -> Failure {
    Failure::Usage(why.into())
}

fn next_value(name: &str, word: Option<&OsString>) -> Result<String, Failure> {
    let word = word.ok_or_else(|| usage(format!("{name} has no value")))?;
    let text = word.to_str().map(String::from);
    text.ok_or_else(|| usage(format!("{name} has a value that is no text")))
}

/// Decimal digits and nothing else.
pub fn number<T: FromStr>(name: &str, word: impl AsRef<OsStr>) -> Result<T, Failure> {
    let word = word.as_ref();
    let digits = word
        .to_str()
        .filter(|text| text.bytes().all(|byte| byte.is_ascii_digit()));
    let number = digits.and_then(|digits| digits.parse().ok());
    number.ok_or_else(|| usage(format!("{name} {} is no number it can be", word.display())))
}

#[cfg(test)]
mod tests {
    use super::*;

    const SHAPE: Shape = Shape {
        words: &["IMAGE"],
        options: &[
            Known::Value("--area"),
            Known::Values("--range"),
            Known::Switch("--replace"),
        ],
    };

    fn parse(words: &str) -> Result<Arguments, Failure> {
        let given: Vec<OsString> = words.split_whitespace().map(OsString::from).collect();
        Arguments::parse(&given, &SHAPE)
    }

    fn refused(words: &str) -> String {
        match parse(words) {
            Err(Failure::Usage(why)) => why,
            other => panic!("{words}: {other:?}"),
        }
    }

    #[test]
    fn words_and_options_may_mix() {
        let given = parse("--range 1:2 card --area=8 --range 9:1 --replace").unwrap();
        assert_eq!(given.path(0), Path::new("card"));
        assert_eq!(given.value_number::<u32>("--area").unwrap(), Some(8));
        assert!(given.values("--range").eq(["1:2", "9:1"]));
        assert!(given.has("--replace") && !given.help);
        assert_eq!(parse("-- --area").unwrap().path(0), Path::new("--area"));
        assert!(parse("--help").unwrap().help);
    }

    #[test]
    fn what_no_command_takes_is_refused() {
        for (words, why) in [
            ("", "IMAGE is missing"),
            ("card two", "two is a word too many"),
            ("card --area", "--area has no value"),
            ("card --area 8 --area 9", "--area twice"),
            ("card --replace=yes", "--replace takes no value"),
            ("card --colour red", "no option --colour"),
            ("card -x", "no option -x"),
        ] {
            assert_eq!(refused(words), why);
        }
        for words in [
            "card --area -8",
            "card --area +8",
            "card --area 99999999999",
        ] {
            let area = parse(words).unwrap().value_number::<u32>("--area");
            assert!(matches!(area, Err(Failure::Usage(_))), "{words}");
        }
    }
}
