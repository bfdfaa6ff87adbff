//! What a box sends back.

use crate::message::Message;
use crate::numbers::Number;
use crate::table::Table;

pub const REPLY_LENGTH: usize = 24;

/// The reply to a message that was done.
#[derive(Clone, Copy, Debug, PartialEq, Eq)]
pub struct Reply {
    pub kind: u8,
    pub box_number: u8,
    pub state: u8,
    pub view: u32,
    pub stamp: u64,
    pub value: u64,
}

impl Reply {
    /// The reply of a box that holds this table after the message.
    pub fn to(message: &Message, after: &Table) -> Reply {
        let (state, stamp, value) = state_stamp_and_value(message, after);
        Reply {
            kind: message.kind(),
            box_number: after.box_number,
            state,
            view: after.view,
            stamp,
            value,
        }
    }

    /// "Reply, 24 bytes: number 0, kind, box, state byte [..], last normal view after the call 4, stamp 8, value 8."
    pub fn bytes(&self) -> Vec<u8> {
        let mut bytes = vec![Number::Done.code(), self.kind, self.box_number, self.state];
        bytes.extend(self.view.to_be_bytes());
        bytes.extend(self.stamp.to_be_bytes());
        bytes.extend(self.value.to_be_bytes());
        bytes
    }
}

/// What an answer says beside the reply's bytes.
#[derive(Clone, Copy, Debug, PartialEq, Eq)]
pub struct Answered {
    pub number: Number,
    /// How many rows the search for the message's stamp compared.
    pub compared: usize,
}

impl Answered {
    /// An answer without a search, for there was no table or no message.
    pub fn unsearched(number: Number) -> Answered {
        let compared = 0;
        Answered { number, compared }
    }

    /// Coded as at the C boundary: the number in bits 0 to 7, the rows compared from bit 16 on.
    pub fn word(self) -> u64 {
        u64::from(self.number.code()) | (self.compared as u64) << 16
    }
}

/// "the reply has the number in byte 0 and 23 zero bytes"
pub fn refusal_bytes(number: Number) -> Vec<u8> {
    let mut bytes = vec![0; REPLY_LENGTH];
    bytes[0] = number.code();
    bytes
}

/// "state byte (prepare byte for 1 and 2, outcome byte for 3 and 4, else 0)"; "For 5 the stamp is the promised view; for
/// 6 zero; for 7 the version found, and value its value, both 0 if none. For 1 and 2 value is the retry stamp;
/// otherwise 0."
fn state_stamp_and_value(message: &Message, after: &Table) -> (u8, u64, u64) {
    match message {
        Message::ProposePrepare { stamp, .. } | Message::FinalisePrepare { stamp, .. } => {
            let row = after.rows.get(stamp);
            let state = row.map_or(0, |row| row.prepare_byte());
            (state, *stamp, row.map_or(0, |row| row.retry_stamp()))
        }
        Message::ProposeOutcome { stamp, .. } | Message::FinaliseOutcome { stamp, .. } => {
            let row = after.rows.get(stamp);
            (row.map_or(0, |row| row.outcome_byte()), *stamp, 0)
        }
        Message::ChangeView { .. } => (0, u64::from(after.promised()), 0),
        Message::StartView { .. } => (0, 0, 0),
        Message::Read { stamp, register } => {
            let (version, value) = newest_write(after, *stamp, *register).unwrap_or((0, 0));
            (0, version, value)
        }
    }
}

/// "Finds the greatest done-commit write of that register at or below the stamp": its stamp and its value.
pub fn newest_write(table: &Table, stamp: u64, register: u8) -> Option<(u64, u64)> {
    table
        .rows
        .range(..=stamp)
        .filter(|(_, row)| row.is_committed())
        .filter_map(|(version, row)| Some((*version, *row.body.writes.get(&register)?)))
        .max()
}
