//! A box's answer to one message: which refusal applies, what the table becomes, what is written.

use crate::body::Body;
use crate::bytes::put;
use crate::day_order::proposal_check;
use crate::halving::compared_for;
use crate::message::Message;
use crate::numbers::{first_that_applies, Number};
use crate::reply::{refusal_bytes, Answered, Reply, REPLY_LENGTH};
use crate::room::has_room;
use crate::row::{HeldOutcome, HeldPrepare, Outcome, PrepareResult, Row};
use crate::table::{Mode, Table};
use crate::Model;

/// The number of the answer over bytes.
pub fn answer_for(model: Model, table: &mut [u8], message: &[u8], reply: &mut [u8]) -> Number {
    answered_for(model, table, message, reply).number
}

/// The answer over bytes, with the rows that were compared.
pub fn answered_for(model: Model, table: &mut [u8], message: &[u8], reply: &mut [u8]) -> Answered {
    if table.len() < model.buffer || reply.len() < REPLY_LENGTH {
        // "except number 1, which writes nothing"
        return Answered::unsearched(Number::SmallBuffer);
    }
    match parsed(model, table, message) {
        Ok((held, length, message)) => {
            let number = match respond(model, &held, &message) {
                Ok((after, done)) => write(table, length, &after, reply, &done),
                Err(refusal) => refuse(reply, refusal),
            };
            let compared = compared_for(number, &held, &message);
            Answered { number, compared }
        }
        Err(refusal) => Answered::unsearched(refuse(reply, refusal)),
    }
}

/// The table held with the length of its image, and the message.
fn parsed(model: Model, table: &[u8], message: &[u8]) -> Result<(Table, usize, Message), Number> {
    let (held, length) = Table::parse_for(model, table).ok_or(Number::BadTable)?;
    let message = Message::parse_for(model, message).ok_or(Number::BadMessage)?;
    Ok((held, length, message))
}

/// The table is written only here, and only when the message was done.
fn write(
    table: &mut [u8],
    old_length: usize,
    after: &Table,
    reply: &mut [u8],
    done: &Reply,
) -> Number {
    let mut image = after.image();
    // "if the image shrank, the bytes given up are zero"
    image.resize(image.len().max(old_length), 0);
    put(table, &image);
    put(reply, &done.bytes());
    Number::Done
}

fn refuse(reply: &mut [u8], refusal: Number) -> Number {
    put(reply, &refusal_bytes(refusal));
    refusal
}

/// The answer over structures: the table after the message and the reply, or the refusal.
pub fn respond(model: Model, table: &Table, message: &Message) -> Result<(Table, Reply), Number> {
    match first_that_applies(|number| applies(number, model, table, message)) {
        Number::Done => {
            let after = table_after(table, message);
            let reply = Reply::to(message, &after);
            Ok((after, reply))
        }
        refusal => Err(refusal),
    }
}

/// The column "given exactly if", for a table and a message that could be parsed.
fn applies(number: Number, model: Model, table: &Table, message: &Message) -> bool {
    match number {
        Number::BadMessage => bad_start(table, message),
        Number::Changing => changing(table, message),
        Number::OtherView => other_view(table, message),
        Number::OldView => old_view(table, message),
        Number::Unknown => unknown(table, message),
        Number::OtherBody => other_body(table, message),
        Number::Contradiction => contradiction(table, message),
        Number::Full => full(model, table, message),
        // The buffers and the parsing have been looked at; wrong tables are a merge's.
        Number::Done | Number::SmallBuffer | Number::BadTable | Number::WrongTables => false,
    }
}

/// "The image must be normal, view v, box v mod n, the same n, start rows equal to rows, prepare bytes 0 or 5 to 8,
/// outcomes 0, 3 or 4; otherwise bad message."
fn bad_start(table: &Table, message: &Message) -> bool {
    let (view, image) = match message {
        Message::StartView { view, image } => (*view, image),
        _ => return false,
    };
    let same_n = image.n == table.n;
    let box_of_the_view = u32::from(image.box_number) == view % u32::from(image.n.max(1));
    let good_header = image.mode == Mode::Normal && image.view == view && box_of_the_view && same_n;
    let all_start_rows = image.start_rows == image.rows.len();
    let all_settled = image.rows.values().all(|row| {
        row.prepare.map_or(true, |held| held.is_final)
            && row.outcome.map_or(true, |held| held.is_done)
    });
    !(good_header && all_start_rows && all_settled)
}

/// "messages 1 to 4 and 7 while mode is 1"
fn changing(table: &Table, message: &Message) -> bool {
    table.mode != Mode::Normal && [1, 2, 3, 4, 7].contains(&message.kind())
}

/// "message 2 or 4 for a view that isn't the box's"
fn other_view(table: &Table, message: &Message) -> bool {
    match message {
        Message::FinalisePrepare { view, .. } | Message::FinaliseOutcome { view, .. } => {
            *view != table.view
        }
        _ => false,
    }
}

/// "message 5 with v at or below promised; 6 with v below promised or at or below view"
fn old_view(table: &Table, message: &Message) -> bool {
    match message {
        Message::ChangeView { view } => *view <= table.promised(),
        Message::StartView { view, .. } => *view < table.promised() || *view <= table.view,
        _ => false,
    }
}

/// "finalising a part that the table doesn't hold"
fn unknown(table: &Table, message: &Message) -> bool {
    match message {
        Message::FinalisePrepare { stamp, .. } => held_prepare(table, *stamp).is_none(),
        Message::FinaliseOutcome { stamp, .. } => held_outcome(table, *stamp).is_none(),
        _ => false,
    }
}

/// "the stamp is held with another body"
fn other_body(table: &Table, message: &Message) -> bool {
    match message {
        Message::ProposePrepare { stamp, body } | Message::ProposeOutcome { stamp, body, .. } => {
            let held = table.rows.get(stamp);
            held.map_or(false, |row| row.body != *body)
        }
        _ => false,
    }
}

/// "an unequal final result or an opposite outcome is held"
fn contradiction(table: &Table, message: &Message) -> bool {
    match message {
        Message::FinalisePrepare { stamp, result, .. } => held_prepare(table, *stamp)
            .map_or(false, |held| held.is_final && held.result != *result),
        Message::ProposeOutcome { stamp, outcome, .. }
        | Message::FinaliseOutcome { stamp, outcome, .. } => {
            held_outcome(table, *stamp).map_or(false, |held| held.outcome != *outcome)
        }
        _ => false,
    }
}

/// "a new stamp with 512 rows held", as document 02 amends it: with no room for it.
fn full(model: Model, table: &Table, message: &Message) -> bool {
    match message {
        Message::ProposePrepare { stamp, .. } | Message::ProposeOutcome { stamp, .. } => {
            !table.rows.contains_key(stamp) && !has_room(model, table)
        }
        _ => false,
    }
}

fn held_prepare(table: &Table, stamp: u64) -> Option<HeldPrepare> {
    table.rows.get(&stamp).and_then(|row| row.prepare)
}

fn held_outcome(table: &Table, stamp: u64) -> Option<HeldOutcome> {
    table.rows.get(&stamp).and_then(|row| row.outcome)
}

/// What the table becomes when no refusal applies.
fn table_after(table: &Table, message: &Message) -> Table {
    let mut after = table.clone();
    match message {
        Message::ProposePrepare { stamp, body } => propose_prepare(&mut after, *stamp, body),
        Message::FinalisePrepare { stamp, result, .. } => {
            finalise_prepare(&mut after, *stamp, *result)
        }
        Message::ProposeOutcome {
            stamp,
            outcome,
            body,
        } => propose_outcome(&mut after, *stamp, *outcome, body),
        Message::FinaliseOutcome { stamp, outcome, .. } => {
            finalise_outcome(&mut after, *stamp, *outcome)
        }
        // "Promised = v, mode 1."
        Message::ChangeView { view } => after.mode = Mode::Changing { promised: *view },
        // "The box takes it whole, keeping its own box number."
        Message::StartView { image, .. } => {
            after = image.clone();
            after.box_number = table.box_number;
        }
        Message::Read { .. } => {}
    }
    after
}

/// "If a prepare byte is held, answer it. If only an outcome is held, store and answer tentative OK for commit, ABORT for
/// abort. Otherwise add a row with the check's tentative result."
fn propose_prepare(table: &mut Table, stamp: u64, body: &Body) {
    if held_prepare(table, stamp).is_some() {
        return;
    }
    let result = match held_outcome(table, stamp).map(|held| held.outcome) {
        Some(Outcome::Commit) => PrepareResult::Ok,
        Some(Outcome::Abort) => PrepareResult::Abort,
        None => proposal_check(&table.rows, stamp, body),
    };
    row_of(table, stamp, body).prepare = Some(HeldPrepare::tentative(result));
}

/// "The row becomes final with that result; an equal final one stays."
fn finalise_prepare(table: &mut Table, stamp: u64, result: PrepareResult) {
    if let Some(row) = table.rows.get_mut(&stamp) {
        row.prepare = Some(HeldPrepare::finalised(result));
    }
}

/// "Noted, adding a row if needed; a held equal outcome stays."
fn propose_outcome(table: &mut Table, stamp: u64, outcome: Outcome, body: &Body) {
    let row = row_of(table, stamp, body);
    row.outcome = row.outcome.or(Some(HeldOutcome::noted(outcome)));
}

/// "An equal noted outcome becomes done; an equal done one stays."
fn finalise_outcome(table: &mut Table, stamp: u64, outcome: Outcome) {
    if let Some(row) = table.rows.get_mut(&stamp) {
        row.outcome = Some(HeldOutcome::done(outcome));
    }
}

/// The row of the stamp, added if needed.
fn row_of<'a>(table: &'a mut Table, stamp: u64, body: &Body) -> &'a mut Row {
    let rows = &mut table.rows;
    rows.entry(stamp).or_insert_with(|| Row::with_body(body))
}
