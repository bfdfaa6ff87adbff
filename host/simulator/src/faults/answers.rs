//! Faults in a box's answer, over the second program's structures.

use crate::machine::SECOND;
use reference::bytes::put;
use reference::reply::refusal_bytes;
use reference::room::{has_room, share};
use reference::row::HeldOutcome;
use reference::{
    proposal_check, respond, Body, Counts, HeldPrepare, Message, Model, Number, Outcome,
    PrepareResult, Reply, Rows, Table,
};

type Answer = Result<(Table, Reply), Number>;

/// The answer over bytes of a box that responds so. What is no table or no message is left to the second program.
pub fn answer(
    respond: fn(Model, &Table, &Message) -> Answer,
    model: Model,
    table: &mut [u8],
    message: &[u8],
    reply: &mut [u8],
) -> u8 {
    let held = Table::parse_for(model, table);
    let (held, length, parsed) = match (held, Message::parse_for(model, message)) {
        (Some((held, length)), Some(parsed)) => (held, length, parsed),
        _ => return (SECOND.answer)(model, table, message, reply),
    };
    match respond(model, &held, &parsed) {
        Ok((after, said)) => {
            let mut image = after.image();
            image.resize(image.len().max(length), 0);
            put(table, &image);
            put(reply, &said.bytes());
            0
        }
        Err(refusal) => {
            put(reply, &refusal_bytes(refusal));
            refusal.code()
        }
    }
}

/// A new transaction is checked as if noted aborts of others were done.
pub fn noted_abort_frees(model: Model, table: &Table, message: &Message) -> Answer {
    let stamp = match message {
        Message::ProposePrepare { stamp, .. } if !table.rows.contains_key(stamp) => *stamp,
        _ => return respond(model, table, message),
    };
    let mut freed = table.clone();
    for row in freed.rows.values_mut() {
        if row.outcome == Some(HeldOutcome::noted(Outcome::Abort)) {
            row.outcome = Some(HeldOutcome::done(Outcome::Abort));
        }
    }
    let (checked, reply) = respond(model, &freed, message)?;
    let mut after = table.clone();
    after.rows.insert(stamp, checked.rows[&stamp].clone());
    Ok((after, reply))
}

/// Message 4 is taken for the box's own view, whichever it names.
pub fn outcome_of_any_view(model: Model, table: &Table, message: &Message) -> Answer {
    let mut message = message.clone();
    if let Message::FinaliseOutcome { view, .. } = &mut message {
        *view = table.view;
    }
    respond(model, table, &message)
}

/// Message 2 is taken for the box's own view, whichever it names.
pub fn result_of_any_view(model: Model, table: &Table, message: &Message) -> Answer {
    let mut message = message.clone();
    if let Message::FinalisePrepare { view, .. } = &mut message {
        *view = table.view;
    }
    respond(model, table, &message)
}

/// Of a started image only the rows are taken that the box does not have.
pub fn own_rows_kept(model: Model, table: &Table, message: &Message) -> Answer {
    let (mut after, reply) = respond(model, table, message)?;
    if let Message::StartView { .. } = message {
        after.rows.extend(table.rows.clone());
    }
    Ok((after, reply))
}

/// Every new transaction is tentatively OK, whatever the check says.
pub fn ok_to_all(model: Model, table: &Table, message: &Message) -> Answer {
    checked_by(|_, _, _| PrepareResult::Ok, model, table, message)
}

/// Every new transaction is checked as a merge checks it.
pub fn checked_as_in_a_merge(model: Model, table: &Table, message: &Message) -> Answer {
    checked_by(reference::check, model, table, message)
}

/// The stamp of a RETRY is that of the latest committed row that is in the way, also if a prepared one is later.
pub fn advised_by_committed_alone(model: Model, table: &Table, message: &Message) -> Answer {
    let committed = |rows: &Rows| -> Rows {
        let held = rows.iter().filter(|(_, row)| row.is_committed());
        held.map(|(stamp, row)| (*stamp, row.clone())).collect()
    };
    let check = |rows: &Rows, stamp, body: &Body| match proposal_check(rows, stamp, body) {
        PrepareResult::Retry(_) => proposal_check(&committed(rows), stamp, body),
        other => other,
    };
    checked_by(check, model, table, message)
}

/// Every new transaction gets what another check says of it.
fn checked_by(
    check: impl Fn(&Rows, u64, &Body) -> PrepareResult,
    model: Model,
    table: &Table,
    message: &Message,
) -> Answer {
    let (mut after, mut reply) = respond(model, table, message)?;
    if let Message::ProposePrepare { stamp, body } = message {
        if let (false, Some(row)) = (table.rows.contains_key(stamp), after.rows.get_mut(stamp)) {
            let result = check(&table.rows, *stamp, body);
            row.prepare = Some(HeldPrepare::tentative(result));
            reply = Reply::to(message, &after);
        }
    }
    Ok((after, reply))
}

/// Messages 1 to 4 are answered as they should be, and change nothing.
pub fn no_row_stored(model: Model, table: &Table, message: &Message) -> Answer {
    let (after, reply) = respond(model, table, message)?;
    let stored = if message.kind() > 4 {
        after
    } else {
        table.clone()
    };
    Ok((stored, reply))
}

/// Message 6 is old for a box that has not promised its view.
pub fn start_only_if_promised(model: Model, table: &Table, message: &Message) -> Answer {
    match message {
        Message::StartView { view, .. } if table.promised() != *view => Err(Number::OldView),
        _ => respond(model, table, message),
    }
}

/// Row 7 as it was: "a new stamp with 512 rows held".
pub fn no_room_kept(model: Model, table: &Table, message: &Message) -> Answer {
    with_share(model.rows - table.start_rows, model, table, message)
}

/// The rows that are left, "divided by f+1" and rounded up.
pub fn share_rounded_up(model: Model, table: &Table, message: &Message) -> Answer {
    let left = model.rows - table.start_rows;
    let rounded_up = left + quorum(table) - 1;
    with_share(rounded_up / quorum(table), model, table, message)
}

/// The rows that are left, divided by f.
pub fn shared_by_f(model: Model, table: &Table, message: &Message) -> Answer {
    let left = model.rows - table.start_rows;
    with_share(left / (quorum(table) - 1), model, table, message)
}

/// All rows, not "less the start rows".
pub fn share_of_all_rows(model: Model, table: &Table, message: &Message) -> Answer {
    with_share(model.rows / quorum(table), model, table, message)
}

fn quorum(table: &Table) -> usize {
    Counts::from_n(table.n)
        .expect("a group of 3, 5 or 7")
        .quorum
}

/// A new stamp is taken until the rows added reach a share that is larger than it should be, or the table has no row left.
fn with_share(share: usize, model: Model, table: &Table, message: &Message) -> Answer {
    let added = table.rows.len() - table.start_rows;
    let takes_it = added < share && table.rows.len() < model.rows;
    let endless = Model {
        rows: usize::MAX,
        ..model
    };
    match respond(model, table, message) {
        // Number 7 comes last in the order, so that nothing but the room is in the way.
        Err(Number::Full) if takes_it => respond(endless, table, message),
        answer => answer,
    }
}

/// A new stamp is full once all rows held reach the share, not "the rows added since its view began".
pub fn start_rows_count(model: Model, table: &Table, message: &Message) -> Answer {
    let share = share(model, table);
    let (after, reply) = respond(model, table, message)?;
    let is_new = message.kind() != 6 && after.rows.len() > table.rows.len();
    match is_new && table.rows.len() >= share {
        true => Err(Number::Full),
        false => Ok((after, reply)),
    }
}

/// With no room left every message is full.
pub fn full_to_all(model: Model, table: &Table, message: &Message) -> Answer {
    let done = respond(model, table, message)?;
    match has_room(model, table) {
        true => Ok(done),
        false => Err(Number::Full),
    }
}
