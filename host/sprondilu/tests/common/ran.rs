//! Runs of the program, and what they printed.

use super::json::{self, Value};
use super::{Folder, NAMES, NO_REASON};
use std::ffi::OsStr;
use std::process::{Command, Output};

/// The program, to be run in the folder.
pub fn program(folder: &Folder) -> Command {
    let mut command = Command::new(env!("CARGO_BIN_EXE_sprondilu"));
    command.current_dir(folder.path());
    command
}

/// Runs the program with the words of a line, as a shell takes them apart where nothing is quoted.
pub fn run(folder: &Folder, line: &str) -> Ran {
    let words: Vec<&str> = line.split_whitespace().collect();
    run_words(folder, &words)
}

pub fn run_words<Word: AsRef<OsStr>>(folder: &Folder, words: &[Word]) -> Ran {
    let output = program(folder).args(words).output();
    let line: Vec<_> = words.iter().map(AsRef::as_ref).collect();
    Ran::of(format!("{:?}", line), output.expect("a program to run"))
}

/// A run that is over.
#[derive(Debug)]
pub struct Ran {
    pub line: String,
    /// Nothing if it was killed.
    pub status: Option<i32>,
    pub out: String,
    pub err: String,
}

impl Ran {
    pub fn of(line: String, output: Output) -> Ran {
        Ran {
            line,
            status: output.status.code(),
            out: String::from_utf8(output.stdout).expect("text"),
            err: String::from_utf8(output.stderr).expect("text"),
        }
    }

    /// It did what was asked, and complained of nothing.
    #[track_caller]
    pub fn done(self) -> Ran {
        assert_eq!((self.status, &*self.err), (Some(0), ""), "{:?}", self);
        assert!(self.out.ends_with('\n'), "{:?}", self);
        self
    }

    /// It could not be tried: nothing is printed, and the error says these words.
    #[track_caller]
    pub fn not_tried(self, words: &str) -> Ran {
        assert_eq!((self.status, &*self.out), (Some(2), ""), "{:?}", self);
        assert!(self.err.starts_with("sprondilu: "), "{:?}", self);
        assert!(self.err.contains(words), "{:?} in {:?}", words, self);
        self
    }

    /// Bad usage: which command, what is wrong with it, and where to read more.
    #[track_caller]
    pub fn bad_usage(self, words: &str) -> Ran {
        let ran = self.not_tried(words);
        assert!(ran.err.contains("--help"), "{:?}", ran);
        ran
    }

    /// Refused with this number: it, its name and a reason are printed. The reason is handed back.
    #[track_caller]
    pub fn refused(self, number: u8) -> String {
        assert_eq!((self.status, &*self.err), (Some(1), ""), "{:?}", self);
        let name = NAMES[usize::from(number)];
        let head = format!(": refused with {} {}: ", number, name);
        assert_eq!(self.out.lines().count(), 1, "{:?}", self);
        let reason = self.out.split_once(&head).map(|(_, reason)| reason.trim());
        let reason = reason.unwrap_or_else(|| panic!("{} in {:?}", head, self));
        assert!(
            reason.len() > 10 && !reason.contains(NO_REASON),
            "{:?}",
            self
        );
        reason.to_string()
    }

    /// What was printed, which has to be one JSON value on one line.
    #[track_caller]
    pub fn json(&self) -> Value {
        assert_eq!(self.out.lines().count(), 1, "{:?}", self);
        json::read(&self.out).unwrap_or_else(|what| panic!("{} in {:?}", what, self))
    }

    /// Refused with this number, told in JSON. The reason is handed back, and the byte, if one is wrong.
    #[track_caller]
    pub fn refused_json(self, number: u8) -> (String, Option<u64>) {
        assert_eq!((self.status, &*self.err), (Some(1), ""), "{:?}", self);
        let told = self.json();
        assert_eq!(told.number("number"), Some(u64::from(number)), "{:?}", self);
        assert_eq!(
            told.text("name"),
            Some(NAMES[usize::from(number)]),
            "{:?}",
            self
        );
        assert!(told.text("refused").is_some(), "{:?}", self);
        let reason = told.text("reason").expect("a reason").to_string();
        (reason, told.number("byte"))
    }
}

/// What people are told behind a reason: the rows compared, where a box was asked and refused by what its table holds.
fn behind_the_reason(told: &Value, number: u8) -> String {
    match told.number("rows_compared") {
        Some(1) if (5..=8).contains(&number) => "; 1 row compared".to_string(),
        Some(rows) if (5..=8).contains(&number) => format!("; {} rows compared", rows),
        _ => String::new(),
    }
}

/// Runs a line that is refused, once for people and once for programs: both say the same, and no file of the folder is touched.
/// The reason and the byte are handed back.
#[track_caller]
pub fn refused(folder: &Folder, line: &str, number: u8) -> (String, Option<u64>) {
    let before = folder.state();
    let said = run(folder, line).refused(number);
    let ran = run(folder, &format!("{} --json", line));
    let behind = behind_the_reason(&ran.json(), number);
    let (reason, byte) = ran.refused_json(number);
    assert_eq!(said, format!("{}{}", reason, behind), "{}", line);
    assert!(folder.state() == before, "{} touched a file", line);
    if let Some(byte) = byte {
        let place = format!("at byte {}", byte);
        assert!(reason.contains(&place), "{} in {}", place, reason);
    }
    (reason, byte)
}

/// Runs a line that makes no sense, with and without `--json`: no file of the folder is touched.
#[track_caller]
pub fn bad_usage(folder: &Folder, line: &str, words: &str) {
    let before = folder.state();
    run(folder, line).bad_usage(words);
    run(folder, &format!("{} --json", line)).bad_usage(words);
    assert!(folder.state() == before, "{} touched a file", line);
}

/// Runs a line that cannot be done with these files, with and without `--json`: no file of the folder is touched.
#[track_caller]
pub fn not_tried(folder: &Folder, line: &str, words: &str) {
    let before = folder.state();
    run(folder, line).not_tried(words);
    run(folder, &format!("{} --json", line)).not_tried(words);
    assert!(folder.state() == before, "{} touched a file", line);
}
