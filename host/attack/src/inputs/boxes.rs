//! One box and what it is told.

use super::alterations::altered;
use super::tables::message_about;
use super::{ask, buffer, dirt, image, table_length};
use crate::both::{Both, Difference};
use samples::room::{self, share, GROUPS, START_ROWS};
use samples::{kinds, message, next, random, transactions};
use samples::{Dice, Row, Table, GREATEST_STAMP, MOST_ROWS};

/// Any n and any box, in buffers of any length.
pub fn fresh(both: &mut Both, dice: &mut Dice) -> Result<(), Difference> {
    for _ in 0..100 {
        let length = table_length(dice);
        let mut table = dirt(dice, length);
        let (any, other) = (dice.byte(), dice.byte());
        let n = dice.one_of(&[3, 5, 7, 0, 1, 2, 4, 6, 8, 9, any]);
        let box_number = dice.one_of(&[0, 1, n.wrapping_sub(1), n, other]);
        both.fresh(dice, &mut table, (n, box_number))?;
    }
    Ok(())
}

/// A buffer with the fresh table of a box of a group; nothing but dirt in one that is too short.
fn fresh_box(both: &mut Both, dice: &mut Dice) -> Result<Vec<u8>, Difference> {
    let length = table_length(dice);
    let mut table = dirt(dice, length);
    let n = dice.one_of(&[3, 5, 7]);
    let box_number = dice.below(u64::from(n)) as u8;
    both.fresh(dice, &mut table, (n, box_number))?;
    Ok(table)
}

/// A message that goes on from what the buffer holds; any message if it holds no table.
fn next_message(dice: &mut Dice, table: &[u8], transactions: &[Row]) -> Vec<u8> {
    match image(table) {
        Some(image) => next::message(dice, image, transactions),
        None => any_message(dice),
    }
}

/// A message of any kind about some table.
fn any_message(dice: &mut Dice) -> Vec<u8> {
    let rows = 1 + dice.index(5);
    let table = random::table(dice, rows);
    message_about(dice, &table)
}

/// A long sequence of messages over few transactions, from a fresh table on.
pub fn history(both: &mut Both, dice: &mut Dice) -> Result<(), Difference> {
    let mut table = fresh_box(both, dice)?;
    let transactions = transactions::some(dice);
    for _ in 0..200 {
        let message = next_message(dice, &table, &transactions);
        ask(both, dice, &mut table, &message)?;
    }
    both.valid(dice, &table).map(drop)
}

/// The same, but that most messages are altered, and now and then the table is.
pub fn spoilt_history(both: &mut Both, dice: &mut Dice) -> Result<(), Difference> {
    let mut table = fresh_box(both, dice)?;
    let transactions = transactions::some(dice);
    for _ in 0..200 {
        let message = next_message(dice, &table, &transactions);
        match dice.index(4) {
            0 => ask(both, dice, &mut table, &message)?,
            1 => ask_an_altered_table(both, dice, &table, &message)?,
            _ => {
                let spoilt = altered(dice, &message);
                ask(both, dice, &mut table, &spoilt)?
            }
        };
    }
    Ok(())
}

/// One message to what a table became by alterations; the table itself goes on as it was.
fn ask_an_altered_table(
    both: &mut Both,
    dice: &mut Dice,
    table: &[u8],
    message: &[u8],
) -> Result<u64, Difference> {
    let held = image(table).unwrap_or(&table[..table.len().min(24)]);
    let spoilt = altered(dice, held);
    let mut lent = buffer(dice, &spoilt, table.len());
    ask(both, dice, &mut lent, message)
}

/// Tables that have room for few new stamps or for none, told of some; and messages of every kind about the last of them.
pub fn full(both: &mut Both, dice: &mut Dice) -> Result<(), Difference> {
    for _ in 0..3 {
        let held = nearly_full(dice);
        filled(both, dice, &held)?;
    }
    let held = nearly_full(dice);
    let mut table = filled(both, dice, &held)?;
    // With these a view begins that has all rows of the table from the start, and room of its own.
    for _ in 0..8 {
        for message in kinds::messages(dice, &held) {
            ask(both, dice, &mut table, &message)?;
        }
        tell_of_a_new_stamp(both, dice, &mut table)?;
        tell_of_a_new_stamp(both, dice, &mut table)?;
    }
    both.valid(dice, &table).map(drop)
}

/// The table in a buffer, after it was told of more new stamps than it mostly has room for.
fn filled(both: &mut Both, dice: &mut Dice, held: &Table) -> Result<Vec<u8>, Difference> {
    let mut table = held.image();
    table.resize(table_length(dice).max(table.len()), 0xee);
    for _ in 0..4 {
        tell_of_a_new_stamp(both, dice, &mut table)?;
    }
    Ok(table)
}

/// A table with about as many rows as there is room for in its view, most often one or two less; or with nearly 512, as a
/// box may hold that filled its table before room was kept.
fn nearly_full(dice: &mut Dice) -> Table {
    let (n, any) = (dice.one_of(&GROUPS), dice.index(MOST_ROWS + 1));
    let listed = dice.one_of(&START_ROWS);
    let start_rows = dice.one_of(&[0, any, listed]);
    let last = start_rows + share(n, start_rows);
    let rows = match dice.index(6) {
        0 => MOST_ROWS - dice.index(10),
        1 => last + 1,
        _ => last.saturating_sub(dice.index(4)),
    };
    let rows = rows.clamp(start_rows, MOST_ROWS);
    let (mut held, _) = room::table(dice, n, start_rows, rows);
    if dice.in_a_hundred(20) && held.view < u32::MAX {
        (held.mode, held.promised) = (1, held.view + 1);
    }
    held
}

/// Message 1 or 3 about a new stamp, and once more: then it is held, or refused again.
fn tell_of_a_new_stamp(
    both: &mut Both,
    dice: &mut Dice,
    table: &mut [u8],
) -> Result<(), Difference> {
    let new = new_transaction(dice);
    let verdict = dice.one_of(&[1, 2]);
    let mut messages = [
        message::propose_prepare(&new),
        message::propose_outcome(&new, verdict),
    ];
    dice.shuffle(&mut messages);
    for message in &messages {
        ask(both, dice, table, message)?;
    }
    Ok(())
}

/// A transaction that a random table hardly holds.
fn new_transaction(dice: &mut Dice) -> Row {
    let stamp = 1 + dice.below(GREATEST_STAMP);
    let counts = (dice.index(5), 1 + dice.index(4));
    random::row(dice, stamp, counts)
}
