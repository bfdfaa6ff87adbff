//! Why a box refused a message.

use super::NOT_SEEN;
use crate::commands::count::quorum;
use crate::image::{Header, Row, Table, MOST_ROWS};
use crate::message::Message;
use crate::wrong::{self, Wrong};
use crate::{names, room, stamps};

/// The reason of a refusal by a box that holds this image, and the byte of the message if it is that which is wrong.
pub fn reason(number: u8, image: &[u8], message: &[u8]) -> (String, Option<usize>) {
    let table = Table::of(image);
    if number == 3 {
        return match wrong::message::message(message, Some(table.header.n)) {
            Err(Wrong { byte, what }) => (
                format!("the message, at byte {}: {}", byte, what),
                Some(byte),
            ),
            Ok(()) => (NOT_SEEN.to_string(), None),
        };
    }
    let message = Message::of(message);
    let said = match number {
        4 => changing(&table),
        5 => held(&table, &message).map(other_body),
        6 => held(&table, &message).and_then(|row| contradiction(row, &message)),
        7 => Some(full(&table, &message)),
        8 => Some(unknown(&table, &message)),
        9 => other_view(&table, &message),
        10 => old_view(&table, &message),
        _ => None,
    };
    (said.unwrap_or_else(|| NOT_SEEN.to_string()), None)
}

fn held<'a>(table: &'a Table, message: &Message) -> Option<&'a Row> {
    table.row(message.stamp()?)
}

fn changing(table: &Table) -> Option<String> {
    Some(format!(
        "box {} has left view {} and promised view {}: until that view starts it answers messages 5 and 6 alone",
        table.header.box_number, table.header.view, table.header.promised
    ))
}

fn other_body(row: &Row) -> String {
    format!(
        "the stamp {} is held with another body: {}",
        stamps::short(row.stamp),
        row.body.words()
    )
}

fn contradiction(row: &Row, message: &Message) -> Option<String> {
    let stamp = stamps::short(row.stamp);
    match message {
        Message::FinalisePrepare {
            result,
            retry_stamp,
            ..
        } => Some(format!(
            "the result of {} is held as {}, and the message says {}",
            stamp,
            names::prepare(row.prepare, row.retry_stamp),
            names::result(*result, *retry_stamp)
        )),
        Message::ProposeOutcome { verdict, .. } | Message::FinaliseOutcome { verdict, .. } => {
            Some(format!(
                "the outcome of {} is held as {}, and the message says {}",
                stamp,
                names::outcome(row.outcome),
                names::verdict(*verdict)
            ))
        }
        _ => None,
    }
}

/// "a box refuses a new stamp as full once the rows added since its view began reach" its share; and what a view change does.
fn full(table: &Table, message: &Message) -> String {
    let header = &table.header;
    format!(
        "the stamp {} is new, and since view {} began this box has added {}, where it may add {} ({} less {} start rows, \
         divided by {}, rounded down): nothing was stored; {}",
        message.stamp().map_or(String::new(), stamps::short),
        header.view,
        names::how_many(room::added(header) as usize, "row"),
        room::share(header),
        MOST_ROWS,
        header.start_rows,
        quorum(header.n),
        after_a_view_change(header)
    )
}

/// Whether a view change makes room, as far as one table can tell.
fn after_a_view_change(header: &Header) -> String {
    match room::after_view_change(header) {
        0 => format!(
            "while the {} rows held here stay, no view change makes room, since fewer than {} are left",
            header.rows,
            quorum(header.n)
        ),
        more => format!(
            "a view change makes room for {} more, if the view begins with the {} rows held here",
            more, header.rows
        ),
    }
}

fn unknown(table: &Table, message: &Message) -> String {
    let part = match message {
        Message::FinalisePrepare { .. } => "prepare",
        _ => "outcome",
    };
    let stamp = message.stamp().map_or(String::new(), stamps::short);
    match held(table, message) {
        Some(_) => format!("the row of {} holds no {} to finalise", stamp, part),
        None => format!(
            "the table holds no row of {}, so no {} to finalise",
            stamp, part
        ),
    }
}

fn other_view(table: &Table, message: &Message) -> Option<String> {
    match message {
        Message::FinalisePrepare { view, .. } | Message::FinaliseOutcome { view, .. } => {
            Some(format!(
                "the message is for view {}, and the box is in view {}",
                view, table.header.view
            ))
        }
        _ => None,
    }
}

fn old_view(table: &Table, message: &Message) -> Option<String> {
    let (view, promised) = (table.header.view, table.header.promised);
    match message {
        Message::ChangeView { view: asked } => Some(format!(
            "view {} is asked for, and the box has promised view {} already",
            asked, promised
        )),
        Message::StartView { view: started, .. } if *started < promised => Some(format!(
            "view {} would start, and the box has promised view {}",
            started, promised
        )),
        Message::StartView { view: started, .. } => Some(format!(
            "view {} would start, and the box is in view {} already",
            started, view
        )),
        _ => None,
    }
}
