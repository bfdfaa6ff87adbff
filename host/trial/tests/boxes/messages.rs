//! Messages that a box may well get, over few registers and few stamps, and bytes that are no message.

use crate::calls::number_at;
use samples::{message as make, Dice, Row, Table, GREATEST_STAMP};

/// A message of any kind to a box with this table. Most have the transaction's body and the box's view, and for each
/// stamp one result and one outcome; some in a hundred are strange.
pub fn any(dice: &mut Dice, table: &[u8], transactions: &[Row]) -> Vec<u8> {
    let (view, promised) = (number_at(table, 8), number_at(table, 12));
    let row = &transactions[dice.index(transactions.len())];
    let normal = [1, 1, 1, 1, 1, 2, 2, 3, 3, 4, 4, 5, 6, 7, 7];
    let changing = [1, 2, 3, 4, 5, 6, 6, 6, 7];
    let kinds: &[u8] = if table[3] == 0 { &normal } else { &changing };
    match dice.one_of(kinds) {
        5 => make::change_view(promised + dice.index(3) as u32),
        6 => {
            let later = (promised + dice.index(3) as u32).max(1);
            start_of_some(dice, table[2], later, transactions)
        }
        7 => {
            let stamp = dice.one_of(&[row.stamp, row.stamp, GREATEST_STAMP]);
            make::read(stamp, dice.one_of(&[0, 0, 1, 2, 62, 63]))
        }
        kind => {
            let strange = dice.in_a_hundred(20);
            about(dice, kind, row, view, strange)
        }
    }
}

/// Message 1, 2, 3 or 4 about a transaction. Unless it is strange, no two of them contradict each other.
pub fn about(dice: &mut Dice, kind: u8, row: &Row, view: u32, strange: bool) -> Vec<u8> {
    let other = make::with_other_body(dice, row);
    let turned = u64::from(strange && dice.in_a_hundred(50));
    let row = if strange && turned == 0 { &other } else { row };
    let view = view + u32::from(strange && turned == 0);
    let results = [(1, 0), (1, 0), (1, 0), (2, 0), (3, 0), (4, row.stamp)];
    let result = results[((row.stamp + turned) % 6) as usize];
    let verdict = if (row.stamp + turned) % 3 == 0 { 2 } else { 1 };
    match kind {
        1 => make::propose_prepare(row),
        2 => make::finalise_prepare(row.stamp, view, result),
        3 => make::propose_outcome(row, verdict),
        4 => make::finalise_outcome(row.stamp, view, verdict),
        _ => panic!("message {} is not about a transaction", kind),
    }
}

/// Message 6 with a table of some of the transactions, settled but for a strange row now and then.
fn start_of_some(dice: &mut Dice, n: u8, view: u32, transactions: &[Row]) -> Vec<u8> {
    let mut rows = transactions.to_vec();
    rows.retain(|_| dice.in_a_hundred(50));
    for row in &mut rows {
        row.prepare = dice.one_of(&[0, 5, 5, 6, 7, 8]);
        let outcomes: &[u8] = if row.prepare == 0 {
            &[3, 4]
        } else {
            &[0, 3, 4]
        };
        row.outcome = dice.one_of(outcomes);
        row.retry = if row.prepare == 8 { row.stamp } else { 0 };
        if dice.in_a_hundred(2) {
            (row.prepare, row.retry) = (1, 0);
        }
    }
    let other_view = u32::from(dice.in_a_hundred(5));
    make::start_view(view + other_view, &beginning(n, view, rows))
}

/// The image that a view begins with.
pub fn beginning(n: u8, view: u32, rows: Vec<Row>) -> Vec<u8> {
    let table = Table {
        box_number: (view % u32::from(n)) as u8,
        n,
        mode: 0,
        view,
        promised: view,
        start_rows: rows.len() as u32,
        rows,
    };
    table.image()
}

/// Nothing, any bytes, or a message by the rules but for its kind, for a byte more or for a byte less.
pub fn no_message(dice: &mut Dice, message: &[u8]) -> Vec<u8> {
    let mut bytes = message.to_vec();
    match dice.index(5) {
        0 => bytes.clear(),
        1 => bytes = dice.bytes(1),
        2 => bytes[0] = dice.one_of(&[0, 8, 9, 128, 255]),
        3 => bytes.push(0),
        _ => drop(bytes.pop()),
    }
    bytes
}
