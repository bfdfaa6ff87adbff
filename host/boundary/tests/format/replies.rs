//! What a reply says, by the kind of the message: the page's table of state bytes, stamps and values.

use crate::page::Page;
use crate::{same, Checked};
use reference::reply::newest_write;
use reference::{Message, Row, Table};

pub const COLUMNS: &str = "| kind | state byte | stamp | value |";

/// That the state byte, the stamp and the value of a reply are what the page's row for that kind says of them, in the table
/// after the message.
pub fn said(page: &Page, message: &Message, after: &Table, reply: &[u8]) -> Checked {
    let layout = page.layout("Reply")?;
    let kind = message.kind().to_string();
    let rows = page.section("Reply")?.table(COLUMNS)?;
    same("kinds", rows.len(), 7)?;
    let row = rows.iter().find(|row| row[0] == kind);
    let row = row.ok_or_else(|| format!("no row for kind {}", kind))?;
    for (field, cell) in ["state byte", "stamp", "value"].iter().zip(&row[1..]) {
        let expected = meant(cell, message, after)?;
        same(field, layout.number(reply, field)?, expected)?;
    }
    Ok(())
}

/// The number that a cell means.
fn meant(cell: &str, message: &Message, after: &Table) -> Checked<u64> {
    let row = || held(message, after).ok_or_else(|| format!("{} of no row", cell));
    let found = match message {
        Message::Read { stamp, register } => newest_write(after, *stamp, *register),
        _ => None,
    };
    match cell {
        "0" => Ok(0),
        "that of the message" => stamp(message).ok_or_else(|| "a stamp of no message".to_string()),
        "retry stamp" => Ok(row()?.retry_stamp()),
        "promised view" => Ok(u64::from(after.promised())),
        "version found, or 0 if there is none" => Ok(found.map_or(0, |it| it.0)),
        "value of that version, or 0 if there is none" => Ok(found.map_or(0, |it| it.1)),
        _ if cell.starts_with("[prepare byte]") => Ok(row()?.prepare_byte().into()),
        _ if cell.starts_with("[outcome byte]") => Ok(row()?.outcome_byte().into()),
        _ => Err(format!("\"{}\" means nothing here", cell)),
    }
}

/// The row that a message is about.
fn held<'a>(message: &Message, after: &'a Table) -> Option<&'a Row> {
    after.rows.get(&stamp(message)?)
}

/// The stamp in a message, which messages 5 and 6 do not have.
fn stamp(message: &Message) -> Option<u64> {
    match message {
        Message::ProposePrepare { stamp, .. }
        | Message::FinalisePrepare { stamp, .. }
        | Message::ProposeOutcome { stamp, .. }
        | Message::FinaliseOutcome { stamp, .. }
        | Message::Read { stamp, .. } => Some(*stamp),
        Message::ChangeView { .. } | Message::StartView { .. } => None,
    }
}
