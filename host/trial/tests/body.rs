//! The body that a lookup hands out for a stamp, by the library as by the second program, which finds it in a map.

mod common;

use common::{read, tables, SIZES};
use samples::table::HEADER_LENGTH;
use samples::{spaced, Dice, Row, Table, Tally, GREATEST_STAMP, MOST_ROWS};
use std::collections::BTreeSet;

/// The longest body.
const LONGEST: usize = 72;

/// Every stamp of the table, and those beside each, which it may hold or not.
fn stamps_around(table: &Table) -> BTreeSet<u64> {
    let near = |row: &Row| [row.stamp - 1, row.stamp, row.stamp + 1];
    let ends = [0, 1, u64::MAX];
    table.rows.iter().flat_map(near).chain(ends).collect()
}

/// What the library copies out for a stamp. The bytes behind it in the buffer stay as they are.
fn handed_out(dice: &mut Dice, lent: &[u8], rows: usize, stamp: u64) -> Vec<u8> {
    let before = dice.bytes(LONGEST + 9);
    let mut out = before.clone();
    let length = unsafe { trial::held_body(lent, HEADER_LENGTH, rows, stamp, &mut out) };
    assert_eq!(out[length..], before[length..]);
    out[..length].to_vec()
}

/// The lengths of the bodies that are handed out for these stamps of one table, whose image has other bytes behind it.
fn looked_up(dice: &mut Dice, table: &Table, stamps: &BTreeSet<u64>) -> Vec<usize> {
    let behind = dice.index(100);
    let lent = [table.image(), dice.bytes(behind)].concat();
    let before = lent.clone();
    let second = read(table);
    let mut lengths = Vec::new();
    for stamp in stamps {
        let held = second.rows.get(stamp);
        let body = held.map_or_else(Vec::new, |row| row.body.bytes());
        let rows = table.rows.len();
        let found = handed_out(dice, &lent, rows, *stamp);
        assert_eq!(found, body, "stamp {} of {} rows", stamp, rows);
        lengths.push(body.len());
    }
    assert_eq!(lent, before);
    lengths
}

#[test]
fn a_lookup_hands_out_the_body_of_the_row_with_the_stamp() {
    let mut dice = Dice::seeded(1);
    let mut met = Tally::default();
    for rows in SIZES {
        for table in tables(&mut dice, rows) {
            for length in looked_up(&mut dice, &table, &stamps_around(&table)) {
                met.count(&format!("{} bytes", length), length > 0);
            }
        }
    }
    // None, and the lengths of 1 to 8 accesses.
    met.assert_met(9, 100);
}

/// Every row and every gap is looked up, of a table of so many rows with stamps so far apart.
fn rows_and_gaps_looked_up(dice: &mut Dice, rows: usize, first: u64, apart: u64) {
    let table = spaced::table(dice, rows, first, apart);
    let lengths = looked_up(dice, &table, &spaced::rows_and_gaps(&table));
    // Stamps side by side leave none but the two at the ends.
    let gaps = if apart > 1 { rows + 1 } else { 2.min(rows + 1) };
    let missing = lengths.iter().filter(|length| **length == 0);
    assert_eq!(missing.count(), gaps);
    assert_eq!(lengths.len(), rows + gaps);
}

#[test]
fn every_row_and_every_gap_is_found() {
    let mut dice = Dice::seeded(2);
    for rows in [0, 1, 2, 3, MOST_ROWS - 1, MOST_ROWS] {
        for apart in [1, 2, 3, GREATEST_STAMP / 1_000] {
            let highest = GREATEST_STAMP - apart * rows.saturating_sub(1) as u64;
            for first in [1, 1 + dice.below(highest), highest] {
                rows_and_gaps_looked_up(&mut dice, rows, first, apart);
            }
        }
    }
}
