//! How a run of the program ends: with an answer, a refusal, or without having been tried.

use crate::json::Json;
use crate::names;

/// What a command answers: once in words, once for a program.
#[derive(Debug, PartialEq, Eq)]
pub struct Answer {
    pub text: String,
    pub json: Json,
    pub as_json: bool,
}

impl Answer {
    pub fn printed(&self) -> String {
        if self.as_json {
            format!("{}\n", self.json)
        } else {
            self.text.clone()
        }
    }
}

/// What ended with another number than 0.
#[derive(Debug, PartialEq, Eq)]
pub struct Refusal {
    pub number: u8,
    /// What was refused, such as the name of a file.
    pub what: String,
    pub reason: String,
    /// What people are told behind the reason. A program has it in a field of its own.
    pub behind: String,
    /// Where it is wrong, if it is the bytes of a file that are.
    pub byte: Option<usize>,
    /// What a program may want to know besides.
    pub more: Vec<(&'static str, Json)>,
}

impl Refusal {
    pub fn printed(&self, as_json: bool) -> String {
        if as_json {
            format!("{}\n", self.json())
        } else {
            format!(
                "{}: refused with {} {}: {}{}\n",
                self.what,
                self.number,
                names::number(self.number),
                self.reason,
                self.behind
            )
        }
    }

    fn json(&self) -> Json {
        let mut fields = vec![
            ("number", Json::from(self.number)),
            ("name", Json::text(names::number(self.number))),
            ("refused", Json::text(&self.what)),
            ("reason", Json::text(&self.reason)),
        ];
        if let Some(byte) = self.byte {
            fields.push(("byte", Json::from(byte)));
        }
        fields.extend(self.more.iter().cloned());
        Json::Object(fields)
    }
}

/// Why a command has no answer.
#[derive(Debug, PartialEq, Eq)]
pub enum Stop {
    Refused(Refusal),
    /// The words of the command line make no sense.
    Usage(String),
    /// A file cannot be read or written.
    Trouble(String),
}

/// How a run ended; a stop with whether it is to be told to a program.
#[derive(Debug, PartialEq, Eq)]
pub enum Ended {
    Answered(Answer),
    Stopped(Stop, bool),
}

impl Ended {
    /// 0 for done, 1 for a refusal, 2 for bad usage and for files that cannot be read or written.
    pub fn status(&self) -> u8 {
        match self {
            Ended::Answered(_) => 0,
            Ended::Stopped(Stop::Refused(_), _) => 1,
            Ended::Stopped(_, _) => 2,
        }
    }
}
