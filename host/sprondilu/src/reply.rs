//! A reply of 24 bytes, in its fields.

use crate::calls::{Record, REPLY_BYTES};
use crate::image::{number_at, u32_at};
use crate::json::Json;
use crate::{names, stamps};

/// "Reply, 24 bytes: number 0, kind, box, state byte [..], last normal view after the call 4, stamp 8, value 8."
#[derive(Clone, Copy, Debug, PartialEq, Eq)]
pub struct Reply {
    pub number: u8,
    pub kind: u8,
    pub box_number: u8,
    pub state: u8,
    pub view: u32,
    pub stamp: u64,
    pub value: u64,
}

impl Reply {
    /// The fields of so many bytes, unless there are more or fewer.
    pub fn of(bytes: &[u8]) -> Option<Reply> {
        if bytes.len() != REPLY_BYTES {
            return None;
        }
        Some(Reply {
            number: bytes[0],
            kind: bytes[1],
            box_number: bytes[2],
            state: bytes[3],
            view: u32_at(bytes, 4),
            stamp: number_at(bytes, 8, 8),
            value: number_at(bytes, 16, 8),
        })
    }

    /// What the coordinator counts of an answer to message 1 or 2: "box, view, result with its retry stamp, final or not".
    pub fn record(&self) -> Record {
        let is_final = self.state > 4;
        Record {
            box_number: self.box_number,
            result: if is_final { self.state - 4 } else { self.state },
            is_final: u8::from(is_final),
            view: self.view,
            retry: self.value,
        }
    }

    /// What the box says, with its number.
    pub fn words(&self) -> String {
        if self.number != 0 {
            return format!(
                "refused with {} {}",
                self.number,
                names::number(self.number)
            );
        }
        self.words_with(&self.said())
    }

    /// The same, with other words for what it says.
    pub fn words_with(&self, said: &str) -> String {
        format!(
            "0 done: box {} in view {}: {}",
            self.box_number, self.view, said
        )
    }

    /// What a reply numbered 0 says, and about what.
    pub fn said(&self) -> String {
        match self.kind {
            1..=4 => format!(
                "{} for {}",
                self.state_in_words(),
                stamps::short(self.stamp)
            ),
            _ => self.state_in_words(),
        }
    }

    /// What a reply numbered 0 says.
    pub fn state_in_words(&self) -> String {
        match self.kind {
            1 | 2 => names::prepare(self.state, self.value),
            3 | 4 => names::outcome(self.state).to_string(),
            5 => format!("promised view {}", self.stamp),
            6 => format!("view {} has started", self.view),
            _ if self.stamp == 0 => "never written".to_string(),
            _ => format!("{}, written by {}", self.value, stamps::short(self.stamp)),
        }
    }

    pub fn json(&self) -> Vec<(&'static str, Json)> {
        let mut fields = vec![
            ("number", Json::from(self.number)),
            ("name", Json::text(names::number(self.number))),
        ];
        if self.number == 0 {
            fields.push(("kind", Json::from(self.kind)));
            fields.push(("message", Json::text(names::kind_word(self.kind))));
            fields.push(("box", Json::from(self.box_number)));
            fields.push(("view", Json::from(self.view)));
            fields.extend(self.said_json());
        }
        fields
    }

    fn said_json(&self) -> Vec<(&'static str, Json)> {
        let about = |said: (&'static str, Json)| {
            let mut fields = stamps::json(stamps::STAMP, Some(self.stamp));
            fields.push(said);
            fields
        };
        match self.kind {
            1 | 2 => about(("prepare", names::prepare_json(self.state, self.value))),
            3 | 4 => about(("outcome", names::outcome_json(self.state))),
            5 => vec![("promised_view", Json::from(self.stamp))],
            6 => Vec::new(),
            _ => self.found_json(),
        }
    }

    /// What a read has found: null if nobody has written the register.
    fn found_json(&self) -> Vec<(&'static str, Json)> {
        let version = Some(self.stamp).filter(|stamp| *stamp > 0);
        let value = version.map(|_| Json::text(self.value.to_string()));
        let mut fields = stamps::json(stamps::VERSION, version);
        fields.push(("value", value.unwrap_or(Json::Null)));
        fields
    }
}
