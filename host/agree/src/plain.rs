//! What a box, a merge or a count is asked, in plain numbers that keep no rule: a case may break any of them. The bytes are put
//! together by `samples`, apart from the second program.

use reference::{Body, Message};
use samples::{message, Access, Row, Table};
use std::collections::BTreeMap;

/// A message to a box. A row stands for a stamp with its body; a result is its code with its retry stamp.
pub enum Sent {
    ProposePrepare(Row),
    FinalisePrepare(u64, u32, (u8, u64)),
    ProposeOutcome(Row, u8),
    FinaliseOutcome(u64, u32, u8),
    ChangeView(u32),
    StartView(u32, Table),
    Read(u64, u8),
}

impl Sent {
    pub fn bytes(&self) -> Vec<u8> {
        match self {
            Sent::ProposePrepare(row) => message::propose_prepare(row),
            Sent::FinalisePrepare(stamp, view, result) => {
                message::finalise_prepare(*stamp, *view, *result)
            }
            Sent::ProposeOutcome(row, outcome) => message::propose_outcome(row, *outcome),
            Sent::FinaliseOutcome(stamp, view, outcome) => {
                message::finalise_outcome(*stamp, *view, *outcome)
            }
            Sent::ChangeView(view) => message::change_view(*view),
            Sent::StartView(view, image) => message::start_view(*view, &image.image()),
            Sent::Read(stamp, register) => message::read(*stamp, *register),
        }
    }

    /// A message that the second program has taken apart.
    pub fn of(message: &Message) -> Sent {
        let transaction = |stamp: &u64, body: &Body| {
            Row::of(*stamp, accesses(&body.reads), accesses(&body.writes))
        };
        match message {
            Message::ProposePrepare { stamp, body } => {
                Sent::ProposePrepare(transaction(stamp, body))
            }
            Message::FinalisePrepare {
                stamp,
                view,
                result,
            } => Sent::FinalisePrepare(*stamp, *view, (result.code(), result.retry_stamp())),
            Message::ProposeOutcome {
                stamp,
                outcome,
                body,
            } => Sent::ProposeOutcome(transaction(stamp, body), outcome.code()),
            Message::FinaliseOutcome {
                stamp,
                view,
                outcome,
            } => Sent::FinaliseOutcome(*stamp, *view, outcome.code()),
            Message::ChangeView { view } => Sent::ChangeView(*view),
            Message::StartView { view, image } => Sent::StartView(*view, table_of(image)),
            Message::Read { stamp, register } => Sent::Read(*stamp, *register),
        }
    }
}

/// A table that the second program has taken apart.
pub fn table_of(table: &reference::Table) -> Table {
    let rows = table.rows.iter().map(|(stamp, row)| Row {
        retry: row.retry_stamp(),
        prepare: row.prepare_byte(),
        outcome: row.outcome_byte(),
        ..Row::of(
            *stamp,
            accesses(&row.body.reads),
            accesses(&row.body.writes),
        )
    });
    Table {
        box_number: table.box_number,
        n: table.n,
        mode: u8::from(table.mode != reference::Mode::Normal),
        view: table.view,
        promised: table.promised(),
        start_rows: table.start_rows as u32,
        rows: rows.collect(),
    }
}

fn accesses(accesses: &BTreeMap<u8, u64>) -> Vec<Access> {
    let access = |(register, number): (&u8, &u64)| Access {
        register: *register,
        number: *number,
    };
    accesses.iter().map(access).collect()
}
