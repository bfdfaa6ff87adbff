//! The words of a command line: options with and without a value, and the rest in their order.

use crate::ends::Stop;
use crate::files::Over;
use crate::stamps::{self, Typed};
use std::ffi::OsString;
use std::path::{Path, PathBuf};

/// The words of one command, taken apart.
#[derive(Debug, Default)]
pub struct Words {
    flags: Vec<String>,
    valued: Vec<(String, OsString)>,
    pub plain: Vec<OsString>,
}

pub fn usage(what: impl Into<String>) -> Stop {
    Stop::Usage(what.into())
}

impl Words {
    /// Takes words apart: `flags` stand alone, `valued` have a value after them or after `=`; after `--` all words are plain.
    pub fn of(words: &[OsString], flags: &[&str], valued: &[&str]) -> Result<Words, Stop> {
        let mut taken = Words::default();
        let mut rest = words.iter();
        while let Some(word) = rest.next() {
            let (name, value) = split_value(word);
            if word == "--" {
                taken.plain.extend(rest.by_ref().cloned());
            } else if !name.starts_with("--") {
                taken.plain.push(word.clone());
            } else if taken.has(&name) || taken.gives(&name) {
                return Err(usage(format!("{} is given twice", name)));
            } else if flags.contains(&name.as_str()) {
                taken.flags.push(alone(name, value)?);
            } else if valued.contains(&name.as_str()) {
                let is_option = |word: &str| flags.contains(&word) || valued.contains(&word);
                let value = value.or_else(|| next_value(&mut rest, is_option));
                let value = value.ok_or_else(|| usage(format!("{} needs a value", name)))?;
                taken.valued.push((name, value));
            } else {
                return Err(usage(format!("there is no option {} here", name)));
            }
        }
        Ok(taken)
    }

    pub fn has(&self, flag: &str) -> bool {
        self.flags.iter().any(|given| given == flag)
    }

    /// Whether an option that has a value is there.
    pub fn gives(&self, option: &str) -> bool {
        self.value(option).is_some()
    }

    fn value(&self, option: &str) -> Option<&OsString> {
        let mut given = self.valued.iter();
        given
            .find(|(name, _)| name == option)
            .map(|(_, value)| value)
    }

    pub fn path(&self, option: &str) -> Option<&Path> {
        self.value(option).map(Path::new)
    }

    /// What the file of an option may be written over: with `--replace`, another of its kind. Without that file there is nothing to
    /// replace.
    pub fn over(
        &self,
        option: &str,
        what: &'static str,
        is_one: fn(&[u8]) -> bool,
    ) -> Result<Over, Stop> {
        match (self.has("--replace"), self.value(option)) {
            (false, _) => Ok(Over::Nothing),
            (true, Some(_)) => Ok(Over::Same(what, is_one)),
            (true, None) => Err(usage(format!("--replace is for the file of {}", option))),
        }
    }

    /// The number behind an option that has to be there, if it is no greater than this; `what` says which numbers make sense.
    pub fn number(&self, option: &str, greatest: u64, what: &str) -> Result<u64, Stop> {
        let found = self.number_if_given(option, greatest, what)?;
        found.ok_or_else(|| usage(format!("{} is missing", option)))
    }

    /// The same of an option that need not be there.
    pub fn number_if_given(
        &self,
        option: &str,
        greatest: u64,
        what: &str,
    ) -> Result<Option<u64>, Stop> {
        let value = match self.value(option) {
            None => return Ok(None),
            Some(value) => value.to_string_lossy(),
        };
        let found = stamps::number(&value).filter(|number| *number <= greatest);
        let wrong = || usage(format!("{} is {}, not '{}'", option, what, value));
        found.map(Some).ok_or_else(wrong)
    }

    /// How many boxes the group has. Whether it is a number of boxes that groups have, the library says.
    pub fn n(&self) -> Result<u8, Stop> {
        self.number("--n", 255, "3, 5 or 7").map(|n| n as u8)
    }

    /// The plain words as files: one for each of these, and no more.
    pub fn files<const HOW_MANY: usize>(
        &self,
        what: [&str; HOW_MANY],
    ) -> Result<[PathBuf; HOW_MANY], Stop> {
        if let Some(missing) = what.get(self.plain.len()) {
            return Err(usage(format!("{} is missing", missing)));
        }
        self.no_more_than(HOW_MANY)?;
        let files: Vec<PathBuf> = self.plain.iter().map(PathBuf::from).collect();
        files.try_into().map_err(|_| usage("other files"))
    }

    pub fn no_more_than(&self, how_many: usize) -> Result<(), Stop> {
        match self.plain.get(how_many) {
            Some(word) => Err(usage(format!(
                "'{}' is one word too many",
                word.to_string_lossy()
            ))),
            None => Ok(()),
        }
    }

    /// The plain words as text.
    pub fn text(&self) -> Vec<String> {
        let text = |word: &OsString| word.to_string_lossy().into_owned();
        self.plain.iter().map(text).collect()
    }
}

/// An option that takes no value.
fn alone(name: String, value: Option<OsString>) -> Result<String, Stop> {
    match value {
        Some(_) => Err(usage(format!("{} takes no value", name))),
        None => Ok(name),
    }
}

/// The next word as a value. One of the command's own options is none: whoever means a file of that name writes it after `=`.
fn next_value<'a>(
    rest: &mut impl Iterator<Item = &'a OsString>,
    is_option: impl Fn(&str) -> bool,
) -> Option<OsString> {
    let is_value = |word: &&OsString| !is_option(&word.to_string_lossy());
    rest.next().filter(is_value).cloned()
}

/// `--name=value` in two, and any other word as it is.
fn split_value(word: &OsString) -> (String, Option<OsString>) {
    use std::os::unix::ffi::{OsStrExt, OsStringExt};
    let bytes = word.as_bytes();
    let place = bytes.iter().position(|byte| *byte == b'=');
    match place.filter(|_| bytes.starts_with(b"--")) {
        None => (word.to_string_lossy().into_owned(), None),
        Some(place) => {
            let name = String::from_utf8_lossy(&bytes[..place]).into_owned();
            let value = OsString::from_vec(bytes[place + 1..].to_vec());
            (name, Some(value))
        }
    }
}

/// A number from 0 to the greatest that is allowed, from words; `what` names it.
pub fn number(words: &str, what: &str, greatest: u64) -> Result<u64, Stop> {
    stamps::number_up_to(words, what, greatest).map_err(usage)
}

/// A stamp from words; `what` says what it is typed for.
pub fn stamp(words: &str, what: Typed) -> Result<u64, Stop> {
    stamps::typed(words, what).map_err(usage)
}
