//! Messages of every kind about one table, and of kinds that there are not.

use crate::message as make;
use crate::{random, Dice, Row, Table, GREATEST_STAMP};

/// The numbers that the paper has for an answer to each kind; at 0 those for a kind that there is not, and for no bytes at
/// all: a bad message is all that is known of those.
pub const NUMBERS: [&[u8]; 8] = [
    &[1, 2, 3],
    &[0, 1, 2, 3, 4, 5, 7],
    &[0, 1, 2, 3, 4, 6, 8, 9],
    &[0, 1, 2, 3, 4, 5, 6, 7],
    &[0, 1, 2, 3, 4, 6, 8, 9],
    &[0, 1, 2, 3, 10],
    &[0, 1, 2, 3, 10],
    &[0, 1, 2, 3, 4],
];

/// A message of every kind, about a row of the table or about a stamp that it hardly holds; then one of an unknown kind, and
/// none at all.
pub fn messages(dice: &mut Dice, table: &Table) -> Vec<Vec<u8>> {
    let held = &table.rows[dice.index(table.rows.len())];
    let any_stamp = 1 + dice.below(GREATEST_STAMP);
    let new = random::row(dice, any_stamp, (2, 2));
    let row = if dice.in_a_hundred(60) { held } else { &new };
    let result = match held.prepare % 4 {
        0 => (4, held.retry.max(1)),
        code => (code, 0),
    };
    let view = table.view;
    let image = make::settled(&table.image(), table.promised.wrapping_add(1));
    vec![
        make::propose_prepare(row),
        make::finalise_prepare(row.stamp, view, result),
        make::propose_outcome(row, 2 - held.outcome % 2),
        make::finalise_outcome(row.stamp, view, 2 - held.outcome % 2),
        make::change_view(table.promised.wrapping_add(1)),
        make::start_view(table.promised.wrapping_add(1), &image),
        make::read(row.stamp, register(row)),
        unknown(dice, row),
        Vec::new(),
    ]
}

fn register(row: &Row) -> u8 {
    row.writes.last().map_or(0, |write| write.register)
}

/// A message by the rules but for its kind, 0 or 8 to 255.
fn unknown(dice: &mut Dice, row: &Row) -> Vec<u8> {
    let made: [fn(&Row) -> Vec<u8>; 3] = [
        make::propose_prepare,
        |row| make::read(row.stamp, 0),
        |row| make::change_view(row.stamp as u32),
    ];
    let mut message = dice.one_of(&made)(row);
    message[0] = (dice.below(249) as u8).wrapping_add(8);
    message
}
