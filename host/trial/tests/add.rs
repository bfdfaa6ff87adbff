//! A row more, added by the library as by the second program.

mod common;

use common::{lengths, read, some_rows, tables, Change, Lent};
use samples::table::{HEADER_LENGTH, ROW_LENGTH};
use samples::{random, row_of_the_paper, Access, Dice, Row, Table, Tally, MOST_ROWS, TABLE_BYTES};

/// The table without one of its rows, and that row: so a row that is added can have any stamp that a table has.
fn taken_out(table: &Table, index: usize) -> (Table, Row) {
    let mut before = table.clone();
    let row = before.rows.remove(index);
    before.start_rows = before.start_rows.min(before.rows.len() as u32);
    (before, row)
}

/// Puts a row back into a table without it, in a buffer of one length or another. Returns where the body lay in what was
/// lent with the row.
fn put_back(dice: &mut Dice, table: &Table, index: usize, which_length: usize) -> &'static str {
    let (before, row) = taken_out(table, index);
    let before = read(&before);
    let length = lengths(table.length())[which_length];
    let change = Change::adding(dice, &before, &row);
    let after = Lent::holding(dice, before, length).after(&change);
    assert_eq!(after.table.rows, read(table).rows);
    where_the_body_lies(change.lent(), row.body_length())
}

fn where_the_body_lies(lent: &[u8], body_length: usize) -> &'static str {
    let offset = u32::from_be_bytes(lent[16..20].try_into().expect("four bytes")) as usize;
    match (offset == ROW_LENGTH, offset + body_length == lent.len()) {
        (true, true) => "alone behind the row",
        (true, false) => "behind the row, with bytes after it",
        (false, true) => "further on, at the end",
        (false, false) => "further on, with bytes after it",
    }
}

#[test]
fn a_row_is_added_with_all_counts_in_all_places() {
    let mut dice = Dice::seeded(1);
    let mut tally = Tally::default();
    let mut bodies = Tally::default();
    for rows in [1, 2, 3, 8, 101, MOST_ROWS - 1, MOST_ROWS] {
        for (turn, mut table) in tables(&mut dice, rows).into_iter().enumerate() {
            for (which, index) in some_rows(&mut dice, rows) {
                for counts in (1..25).map(|pair| (pair / 5, pair % 5)) {
                    let stamp = table.rows[index].stamp;
                    table.rows[index] = random::row(&mut dice, stamp, counts);
                    let body = put_back(&mut dice, &table, index, turn % 3);
                    bodies.count(body, true);
                    tally.count(&format!("{:?}, {} of {}", counts, which, rows), true);
                }
            }
        }
    }
    tally.assert_met(24 * 3 * 7, 6);
    bodies.assert_met(4, 200);
}

/// The row's offset may lead anywhere in the lent bytes. That of 0 leads to the row's own first 9, which are a write of
/// register 0.
#[test]
fn a_body_may_lie_in_the_row_itself() {
    let mut dice = Dice::seeded(5);
    for rows in [1, 2, 3, 100] {
        for mut table in tables(&mut dice, rows) {
            let index = dice.index(rows);
            let stamp = table.rows[index].stamp;
            let mut row = random::row(&mut dice, stamp, (0, 1));
            row.writes[0] = Access {
                register: 0,
                number: stamp << 8,
            };
            table.rows[index] = row.clone();
            let before = read(&taken_out(&table, index).0);
            let lent = row.head(0);
            let change = Change::Row { index, row, lent };
            Lent::holding(&mut dice, before, table.length()).after(&change);
        }
    }
}

/// A merge at work has rows that hold nothing yet. The second program has no word for them, so their codes are taken out
/// of its image by hand.
#[test]
fn a_row_that_holds_nothing_yet_is_added_all_the_same() {
    let mut dice = Dice::seeded(6);
    for rows in [1, 2, 3, 100, MOST_ROWS] {
        for table in tables(&mut dice, rows) {
            let index = dice.index(rows);
            let (before, row) = taken_out(&table, index);
            let before = read(&before);
            let mut change = Change::adding(&mut dice, &before, &row);
            if let Change::Row { lent, .. } = &mut change {
                without_codes(lent);
            }
            let mut image = change.by_second_program(&before).image();
            without_codes(&mut image[HEADER_LENGTH + ROW_LENGTH * index..]);
            Lent::holding(&mut dice, before, table.length()).after_with(&change, &image);
        }
    }
}

/// Takes retry stamp, prepare byte and outcome byte out of the row that bytes begin with.
fn without_codes(row: &mut [u8]) {
    row[8..16].fill(0);
    row[22..24].fill(0);
}

/// Fills a buffer that has just the room for all rows, one row after the other in this order.
fn filled(dice: &mut Dice, table: &Table, order: &[usize]) {
    let mut empty = table.clone();
    empty.rows.clear();
    empty.start_rows = 0;
    let mut lent = Lent::holding(dice, read(&empty), table.length());
    for index in order {
        lent = lent.after(&Change::adding(dice, &lent.table, &table.rows[*index]));
    }
    let rows = lent.table.rows;
    assert!(rows.len() == order.len() && rows == read(table).rows);
}

#[test]
fn a_buffer_is_filled_up_to_the_512th_row_in_any_order() {
    let mut dice = Dice::seeded(2);
    let table = random::full_table(&mut dice, MOST_ROWS);
    assert_eq!(table.length(), TABLE_BYTES);
    let rising: Vec<usize> = (0..MOST_ROWS).collect();
    let falling: Vec<usize> = rising.iter().rev().copied().collect();
    let mut mixed = rising.clone();
    mixed.sort_by_cached_key(|_| dice.below(u64::MAX));
    for order in [rising, falling, mixed] {
        filled(&mut dice, &table, &order);
    }
}

#[test]
fn the_changes_know_no_row_limit_of_the_paper() {
    let mut dice = Dice::seeded(3);
    for rows in [MOST_ROWS + 1, 1_000, 65_536] {
        let table = random::table(&mut dice, rows);
        for (turn, (_, index)) in some_rows(&mut dice, rows).into_iter().enumerate() {
            put_back(&mut dice, &table, index, turn);
        }
    }
}

/// "After message 1 with stamp 65,537 and one write, register 5, value 7: rows 1, length 57; one row with offset 48, counts
/// 0 and 1, prepare 1, outcome 0; body 05 00 00 00 00 00 00 00 07."
#[test]
fn the_row_of_the_paper_makes_the_table_of_the_paper() {
    let mut dice = Dice::seeded(4);
    let row = row_of_the_paper(1);
    let fresh = reference::Table::fresh(3, 0).expect("box 0 of 3");
    let change = Change::adding(&mut dice, &fresh, &row);
    let header = [&[1, 0, 3, 0, 0, 0, 0, 1][..], &[0; 12], &[0, 0, 0, 57]];
    let in_table = [
        &row.stamp.to_be_bytes()[..],
        &[0; 8],
        &[0, 0, 0, 48, 0, 1, 1, 0],
    ];
    let image = [
        &header.concat()[..],
        &in_table.concat(),
        &[5, 0, 0, 0, 0, 0, 0, 0, 7],
    ]
    .concat();
    Lent::holding(&mut dice, fresh, TABLE_BYTES).after_with(&change, &image);
}
