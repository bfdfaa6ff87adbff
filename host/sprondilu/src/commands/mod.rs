//! The commands, one file each.

pub mod answer;
pub mod check;
pub mod count;
pub mod demo;
pub mod fresh;
pub mod merge;
pub mod message;
pub mod show;

use crate::ends::{Answer, Ended, Refusal, Stop};
use crate::json::Json;
use crate::words::{usage, Words};
use crate::{calls, files, help, names, wrong};
use std::ffi::OsString;
use std::path::Path;

/// One command: its name, its options without and with a value, and what it does.
struct Command {
    name: &'static str,
    flags: &'static [&'static str],
    valued: &'static [&'static str],
    run: fn(&Words) -> Result<(String, Json), Stop>,
}

#[rustfmt::skip]
const COMMANDS: [Command; 8] = [
    Command { name: "show", flags: &["--json", "--message", "--reply"], valued: &[], run: show::run },
    Command { name: "check", flags: &["--json", "--message", "--reply"], valued: &[], run: check::run },
    Command { name: "fresh", flags: &["--json"], valued: &["--n", "--box"], run: fresh::run },
    Command { name: "message", flags: &["--json", "--replace"], valued: &["--out", "--at"], run: message::run },
    Command { name: "answer", flags: &["--json", "--replace"], valued: &["--reply"], run: answer::run },
    Command { name: "merge", flags: &["--json"], valued: &["--view", "--out"], run: merge::run },
    Command { name: "count", flags: &["--json"], valued: &["--n"], run: count::run },
    Command { name: "demo", flags: &[], valued: &["--keep"], run: demo::run },
];

/// Runs what the words of the command line ask for.
pub fn run(words: Vec<OsString>) -> Ended {
    let name = match words.first() {
        Some(word) => word.to_string_lossy().into_owned(),
        None => return stopped(usage(format!("which command?\n\n{}", help::SHORT))),
    };
    if name == "--version" {
        return said(concat!("sprondilu ", env!("CARGO_PKG_VERSION"), "\n"));
    }
    if asks_for_help(&words) {
        return helped(&name, words.get(1));
    }
    match COMMANDS.iter().find(|command| command.name == name) {
        Some(command) => command.done(&words[1..]),
        None => no_command(&name),
    }
}

impl Command {
    fn done(&self, words: &[OsString]) -> Ended {
        let taken = Words::of(words, self.flags, self.valued);
        // A file may have this name too, after `--` or as a value: what counts is the option.
        let as_json = taken.as_ref().map_or(false, |words| words.has("--json"));
        match taken.and_then(|words| (self.run)(&words)) {
            Ok((text, json)) => Ended::Answered(Answer {
                text,
                json,
                as_json,
            }),
            Err(Stop::Usage(what)) => stopped(usage(format!(
                "{}: {}\nSee: sprondilu {} --help",
                self.name, what, self.name
            ))),
            Err(stop) => Ended::Stopped(stop, as_json),
        }
    }
}

/// `--help` anywhere before `--`, or the word help first.
fn asks_for_help(words: &[OsString]) -> bool {
    let mut options = words.iter().take_while(|word| *word != "--");
    words[0] == "help" || options.any(|word| word == "--help" || word == "-h")
}

fn helped(first: &str, second: Option<&OsString>) -> Ended {
    let asked = match (first, second) {
        ("help", Some(command)) => command.to_string_lossy().into_owned(),
        _ => first.to_string(),
    };
    match help::of(&asked) {
        Some(text) => said(text),
        None => no_command(&asked),
    }
}

fn no_command(name: &str) -> Ended {
    stopped(usage(format!(
        "there is no command '{}'\n\n{}",
        name,
        help::SHORT
    )))
}

/// Words that are no answer to anything that was called.
fn said(text: &str) -> Ended {
    Ended::Answered(Answer {
        text: text.to_string(),
        json: Json::Null,
        as_json: false,
    })
}

fn stopped(stop: Stop) -> Ended {
    Ended::Stopped(stop, false)
}

/// What a file is said to be.
enum Kind {
    Table,
    Message,
    Reply,
}

impl Kind {
    /// A table, if nothing else is said.
    fn of(words: &Words) -> Result<Kind, Stop> {
        match (words.has("--message"), words.has("--reply")) {
            (false, false) => Ok(Kind::Table),
            (true, false) => Ok(Kind::Message),
            (false, true) => Ok(Kind::Reply),
            (true, true) => Err(usage("--message and --reply at once")),
        }
    }
}

/// How the JSON of what is done begins.
fn done_json() -> Vec<(&'static str, Json)> {
    vec![
        ("number", Json::from(0u8)),
        ("name", Json::text(names::number(0))),
    ]
}

fn file_json(path: &Path) -> (&'static str, Json) {
    ("file", Json::text(path.display().to_string()))
}

/// What a file is that begins as this one does: a user who names the wrong file learns which it was.
fn what_it_is(bytes: &[u8]) -> Option<&'static str> {
    if calls::image_in(bytes).is_some() {
        Some("a table")
    } else if calls::is_message(bytes) {
        Some("a message")
    } else if wrong::reply::reply(bytes).is_ok() {
        Some("a reply")
    } else {
        None
    }
}

/// The image at the start of a file that has to be a table, or 2, "bad table".
fn image_of<'a>(path: &Path, bytes: &'a [u8]) -> Result<&'a [u8], Stop> {
    let bad = || refused_bytes(2, path, bytes, wrong::table::image(bytes));
    calls::image_in(bytes).ok_or_else(bad)
}

/// A refusal of the bytes of a file.
fn refused_bytes(number: u8, path: &Path, bytes: &[u8], found: wrong::Good) -> Stop {
    let (reason, byte) = wrong::reason(found);
    let hint = what_it_is(bytes).map(|what| format!(" (the file is {})", what));
    Stop::Refused(Refusal {
        number,
        what: path.display().to_string(),
        reason: reason + &hint.unwrap_or_default(),
        behind: String::new(),
        byte,
        more: Vec::new(),
    })
}

/// A refusal of something that is no file of its own.
fn refused(number: u8, what: &str, reason: String) -> Stop {
    Stop::Refused(Refusal {
        number,
        what: what.to_string(),
        reason,
        behind: String::new(),
        byte: None,
        more: Vec::new(),
    })
}

/// The bytes of a file that has to be a table, and how long its image is.
fn table_file(path: &Path) -> Result<(Vec<u8>, usize), Stop> {
    let bytes = files::read(path)?;
    let length = image_of(path, &bytes)?.len();
    Ok((bytes, length))
}

/// The image of a table file on which something will rest that others are sent: it is to be there after a power cut too.
fn settled_image(path: &Path) -> Result<Vec<u8>, Stop> {
    let (bytes, length) = table_file(path)?;
    files::settle(path)?;
    Ok(bytes[..length].to_vec())
}
