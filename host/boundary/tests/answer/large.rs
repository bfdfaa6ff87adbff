//! The largest tables that a row can be added to, with that row, and of 512 rows: new stamps in every place, and held ones.

use crate::lent::Lent;
use samples::message as make;
use samples::room::{share, tables_of_a_merge};
use samples::{random, Dice, Row, Table, GREATEST_STAMP, MOST_ROWS};

/// A view that began with so many rows that each table of a merge may add one has the largest table that takes a new stamp:
/// in a group of three it has 510 rows, and then 511.
pub fn tables(lent: &mut Lent) {
    for turn in 0..60 {
        let mut table = match turn % 3 {
            0 => random::full_table(&mut lent.dice, MOST_ROWS + 1),
            _ => random::table(&mut lent.dice, MOST_ROWS + 1),
        };
        table.mode = 0;
        table.promised = table.view;
        table.n = [3, 5, 7][turn / 6 % 3];
        table.box_number %= table.n;
        let began_with = MOST_ROWS - tables_of_a_merge(table.n);
        assert_eq!(share(table.n, began_with), 1);
        table.start_rows = began_with as u32;
        if turn % 2 == 1 {
            quieten(&mut lent.dice, &mut table);
        }
        for rows in [began_with, began_with + 1, MOST_ROWS] {
            for index in [0, rows / 2, rows, lent.dice.index(rows)] {
                new_stamp(lent, &table, rows, index);
            }
            held_stamps(lent, &table, rows);
        }
    }
}

/// Leaves few rows that a check looks at, so that each of its results is met; where they stand is left to chance.
fn quieten(dice: &mut Dice, table: &mut Table) {
    for row in &mut table.rows {
        row.outcome = 4;
    }
    for _ in 0..dice.index(6) {
        let index = dice.index(table.rows.len());
        let row = &mut table.rows[index];
        row.outcome = dice.one_of(&[0, 1, 2, 3, 3]);
        row.prepare = dice.one_of(&[1, 5]);
        row.retry = 0;
    }
}

/// The table without the row at an index and without enough others that so many are left, and that row.
fn without(table: &Table, rows: usize, index: usize) -> (Table, Row) {
    let mut rest = table.clone();
    let row = rest.rows.remove(index);
    while rest.rows.len() > rows {
        let place = if index == 0 { rest.rows.len() - 1 } else { 0 };
        rest.rows.remove(place);
    }
    (rest, row)
}

fn new_stamp(lent: &mut Lent, table: &Table, rows: usize, index: usize) {
    let (rest, row) = without(table, rows, index);
    let image = rest.image();
    let began_with = rest.start_rows as usize;
    let expected = if rows == began_with { 0 } else { 7 };
    for message in [
        make::propose_prepare(&row),
        make::propose_outcome(&row, 1),
        make::propose_outcome(&row, 2),
    ] {
        lent.hold(&image);
        assert_eq!(lent.ask(&message), expected);
        // A row that was added is held; one that was not is refused again.
        assert_eq!(lent.ask(&message), expected);
    }
    lent.hold(&image);
    let unknown = make::finalise_prepare(row.stamp, table.view, (1, 0));
    assert_eq!(lent.ask(&unknown), 8);
    let unknown = make::finalise_outcome(row.stamp, table.view, 1);
    assert_eq!(lent.ask(&unknown), 8);
}

/// Every message to a large table about rows that it holds, at its ends and inside.
fn held_stamps(lent: &mut Lent, table: &Table, rows: usize) {
    let (rest, _) = without(table, rows, 0);
    lent.hold(&rest.image());
    for index in [0, 1, rows / 2, rows - 2, rows - 1] {
        let row = &rest.rows[index];
        let verdict = lent.dice.one_of(&[1, 2]);
        let register = row.writes.first().map_or(0, |write| write.register);
        for message in [
            make::propose_prepare(row),
            make::propose_prepare(&make::with_other_body(&mut lent.dice, row)),
            make::finalise_prepare(row.stamp, rest.view, (4, GREATEST_STAMP)),
            make::finalise_prepare(row.stamp, rest.view.wrapping_add(1), (1, 0)),
            make::propose_outcome(row, verdict),
            make::finalise_outcome(row.stamp, rest.view, verdict),
            make::finalise_outcome(row.stamp, rest.view, 3 - verdict),
            make::read(row.stamp, register),
        ] {
            lent.ask(&message);
        }
    }
    lent.ask(&make::change_view(rest.view.wrapping_add(1)));
}
