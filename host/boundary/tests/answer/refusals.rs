//! None, one, two or three refusals at once. Which number wins is worked out here as well, from the paper's order alone.

use crate::lent::{
    Lent, REPLIES_LONG_ENOUGH, REPLIES_TOO_SHORT, TABLES_LONG_ENOUGH, TABLES_TOO_SHORT,
};
use samples::message as make;
use samples::room::{share, GROUPS, START_ROWS};
use samples::{damage, random, Dice, Row, Table, MOST_ROWS};

/// "The first that applies wins, in this order".
const ORDER: [u8; 11] = [1, 2, 3, 4, 9, 10, 11, 8, 5, 6, 7];

/// The refusals that a kind can meet, beside 1, 2 and 3.
const OWN: [&[u8]; 8] = [
    &[],
    &[4, 5, 7],
    &[4, 9, 8, 6],
    &[4, 5, 6, 7],
    &[4, 9, 8, 6],
    &[10],
    &[10],
    &[4],
];

/// Refusals that no table and message can meet together: what is not held has no other body and is not opposed, and only a
/// new stamp is too much for a full table.
const NEVER: [(u8, u8); 3] = [(8, 6), (5, 7), (6, 7)];

/// Every kind with every set of at most three refusals that it can meet at once, in many tables; those that need a full
/// table a few times.
pub fn all_sets(lent: &mut Lent) {
    for kind in 1..=7 {
        for wanted in sets(kind) {
            let times = if wanted.contains(&7) { 40 } else { 300 };
            for _ in 0..times {
                asked(lent, kind, &wanted);
            }
        }
    }
}

/// The sets of at most three of a kind's refusals that can be met at once.
fn sets(kind: u8) -> Vec<Vec<u8>> {
    let own: Vec<u8> = [&[1, 2, 3], OWN[usize::from(kind)]].concat();
    let chosen = |set: u32| {
        let places = (0..own.len()).filter(|place| set & (1 << place) != 0);
        places.map(|place| own[place]).collect()
    };
    let possible = |set: &Vec<u8>| {
        let both = |pair: &(u8, u8)| set.contains(&pair.0) && set.contains(&pair.1);
        set.len() <= 3 && !NEVER.iter().any(both)
    };
    (0..1 << own.len()).map(chosen).filter(possible).collect()
}

/// Has a message of this kind answered that meets these refusals and no other.
fn asked(lent: &mut Lent, kind: u8, wanted: &[u8]) {
    let (table, mut message) = made(&mut lent.dice, kind, wanted);
    let mut image = table.image();
    if wanted.contains(&3) {
        message = make::spoiled(&mut lent.dice, &message);
    }
    if wanted.contains(&2) {
        damage::spoil(&mut lent.dice, &mut image);
    }
    lent.hold(&image);
    let lengths = lengths(&mut lent.dice, wanted.contains(&1));
    let number = lent.ask_with(lengths, &message);
    let first = ORDER.iter().find(|number| wanted.contains(number));
    let expected = first.copied().unwrap_or(0);
    assert_eq!(number, expected, "kind {}, {:?}", kind, wanted);
}

/// The lengths of table and reply buffer, of which one or both may be too short.
fn lengths(dice: &mut Dice, too_short: bool) -> (usize, usize) {
    let long = (
        dice.one_of(&TABLES_LONG_ENOUGH),
        dice.one_of(&REPLIES_LONG_ENOUGH),
    );
    let short = (
        dice.one_of(&TABLES_TOO_SHORT),
        dice.one_of(&REPLIES_TOO_SHORT),
    );
    match dice.index(3) {
        _ if !too_short => long,
        0 => (short.0, long.1),
        1 => (long.0, short.1),
        _ => short,
    }
}

/// A table by the rules and a message of a kind by the rules that meet these refusals.
fn made(dice: &mut Dice, kind: u8, wanted: &[u8]) -> (Table, Vec<u8>) {
    let mut table = table_for(dice, wanted);
    let message = match kind {
        1 | 3 => proposal(dice, kind, wanted, &mut table),
        2 | 4 => finalisation(dice, kind, wanted, &mut table),
        5 => make::change_view(view_for(dice, wanted, &mut table)),
        6 => start(dice, wanted, &mut table),
        _ => make::read(1 + dice.below(1 << 40), dice.below(64) as u8),
    };
    (table, message)
}

/// Its mode is as wanted; if it should be full, it has one row too many, for the message to take.
fn table_for(dice: &mut Dice, wanted: &[u8]) -> Table {
    let (n, began_with) = (dice.one_of(&GROUPS), dice.one_of(&START_ROWS));
    let last = began_with + share(n, began_with);
    let (start_rows, rows) = if wanted.contains(&7) {
        let over = dice.one_of(&[last, last + 1, MOST_ROWS]);
        (began_with, over.min(MOST_ROWS) + 1)
    } else {
        (0, 2 + dice.index(5))
    };
    let mut table = random::table(dice, rows);
    (table.n, table.box_number) = (n, table.box_number % n);
    table.start_rows = start_rows as u32;
    table.view = table.view.min(u32::MAX - 3);
    let changing = wanted.contains(&4);
    table.mode = u8::from(changing);
    table.promised = table.view + u32::from(changing) * dice.one_of(&[1, 2]);
    table
}

/// Message 1 or 3, about a row of the table or about one that is taken out of it.
fn proposal(dice: &mut Dice, kind: u8, wanted: &[u8], table: &mut Table) -> Vec<u8> {
    let index = dice.index(table.rows.len());
    let mut row = table.rows[index].clone();
    let mut verdict = dice.one_of(&[1, 2]);
    if wanted.contains(&7) || (dice.in_a_hundred(30) && !holds(wanted)) {
        table.rows.remove(index);
    } else if kind == 3 {
        verdict = verdict_for(dice, wanted, &mut table.rows[index]);
    }
    if wanted.contains(&5) {
        row = make::with_other_body(dice, &row);
    }
    match kind {
        1 => make::propose_prepare(&row),
        _ => make::propose_outcome(&row, verdict),
    }
}

/// Whether the stamp has to be held.
fn holds(wanted: &[u8]) -> bool {
    wanted.contains(&5) || wanted.contains(&6)
}

/// The verdict that the row's outcome agrees with, or the other one. A row without an outcome agrees with both.
fn verdict_for(dice: &mut Dice, wanted: &[u8], row: &mut Row) -> u8 {
    if wanted.contains(&6) {
        row.outcome = dice.one_of(&[1, 2, 3, 4]);
        return if row.outcome % 2 == 1 { 2 } else { 1 };
    }
    match row.outcome {
        0 => dice.one_of(&[1, 2]),
        outcome => 2 - outcome % 2,
    }
}

/// Message 2 or 4, about a row of the table that holds the part, or not.
fn finalisation(dice: &mut Dice, kind: u8, wanted: &[u8], table: &mut Table) -> Vec<u8> {
    let index = dice.index(table.rows.len());
    let row = &mut table.rows[index];
    let stamp = row.stamp;
    let unknown = wanted.contains(&8);
    let result = result_for(dice, wanted, row);
    if kind == 4 && row.outcome == 0 {
        row.outcome = dice.one_of(&[1, 2, 3, 4]);
    }
    let verdict = verdict_for(dice, wanted, row);
    match (unknown, kind, dice.index(2)) {
        (true, _, 0) => drop(table.rows.remove(index)),
        (true, 2, _) => (row.prepare, row.retry, row.outcome) = (0, 0, row.outcome.max(1)),
        (true, _, _) => (row.prepare, row.outcome) = (row.prepare.max(1), 0),
        _ => {}
    }
    let view = match wanted.contains(&9) {
        true => table.view ^ (1 << dice.below(32)),
        false => table.view,
    };
    match kind {
        2 => make::finalise_prepare(stamp, view, result),
        _ => make::finalise_outcome(stamp, view, verdict),
    }
}

/// A result that the row's prepare agrees with, or, if it is opposed, another than its final one. A tentative prepare agrees
/// with every result.
fn result_for(dice: &mut Dice, wanted: &[u8], row: &mut Row) -> (u8, u64) {
    let opposed = wanted.contains(&6);
    if row.prepare == 0 || (opposed && row.prepare < 5) {
        row.prepare = 5 + dice.below(4) as u8;
        row.retry = if row.prepare == 8 { row.stamp } else { 0 };
    }
    let results = [(1, 0), (2, 0), (3, 0), (4, 1), (4, row.stamp), (4, 77)];
    let held = (row.prepare.wrapping_sub(4), row.retry);
    let others: Vec<(u8, u64)> = results.into_iter().filter(|r| *r != held).collect();
    if opposed || row.prepare < 5 {
        dice.one_of(&others)
    } else {
        held
    }
}

/// A view for message 5 or 6, above what is promised or not.
fn view_for(dice: &mut Dice, wanted: &[u8], table: &mut Table) -> u32 {
    if dice.in_a_hundred(50) {
        table.mode = 1;
        table.promised = table.view + dice.one_of(&[1, 2]);
    }
    let promised = table.promised;
    if wanted.contains(&10) {
        return dice.one_of(&[0, table.view, promised, promised.saturating_sub(1)]);
    }
    dice.one_of(&[promised + 1, u32::MAX])
}

/// Message 6 with an image that is as it should be.
fn start(dice: &mut Dice, wanted: &[u8], table: &mut Table) -> Vec<u8> {
    let mut view = view_for(dice, wanted, table);
    if table.mode == 1 && view == table.promised {
        // Promised, and so not yet begun: an older one.
        view = table.view;
    } else if !wanted.contains(&10) && table.mode == 1 {
        view = dice.one_of(&[view, table.promised]);
    }
    let rows = dice.index(8);
    let mut image = random::table(dice, rows);
    image.n = table.n;
    make::start_view(view, &make::settled(&image.image(), view))
}
