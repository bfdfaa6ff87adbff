//! Random tables by the rules: every mode, every pair of codes, every pair of counts; limits come up often.

use crate::{Access, Dice, Row, Table, GREATEST_STAMP};
use std::collections::BTreeSet;

/// Every pair of counts but 0 and 0: "at least one access in all".
fn any_counts(dice: &mut Dice) -> (usize, usize) {
    let pair = 1 + dice.index(24);
    (pair / 5, pair % 5)
}

/// A table of so many rows.
pub fn table(dice: &mut Dice, rows: usize) -> Table {
    table_with(dice, rows, any_counts)
}

/// Tables of three to eight rows, in which every field about which a sample asks can stand, and the dice that made them.
pub fn small_tables(seed: u64, count: usize) -> (Dice, Vec<Table>) {
    let mut dice = Dice::seeded(seed);
    let tables = (0..count).map(|place| table(&mut dice, 3 + place % 6));
    let tables = tables.collect();
    (dice, tables)
}

/// A table of so many rows with the longest bodies, so that each row takes 96 bytes.
pub fn full_table(dice: &mut Dice, rows: usize) -> Table {
    table_with(dice, rows, |_| (4, 4))
}

fn table_with(dice: &mut Dice, rows: usize, counts: fn(&mut Dice) -> (usize, usize)) -> Table {
    let n = dice.one_of(&[3, 5, 7]);
    let (mode, view, promised) = views(dice);
    let some_rows = dice.index(rows + 1);
    let stamps = stamps(dice, rows);
    Table {
        box_number: dice.below(n) as u8,
        n: n as u8,
        mode,
        view,
        promised,
        start_rows: dice.one_of(&[0, some_rows, rows]) as u32,
        rows: stamps
            .into_iter()
            .map(|stamp| {
                let counts = counts(dice);
                row(dice, stamp, counts)
            })
            .collect(),
    }
}

/// "Normal: promised = view. Changing: promised > view": mode, view and promised view.
fn views(dice: &mut Dice) -> (u8, u32, u32) {
    let any = dice.below(1 << 32) as u32;
    let view = dice.one_of(&[0, 1, any, u32::MAX - 1, u32::MAX]);
    if view == u32::MAX || dice.in_a_hundred(50) {
        return (0, view, view);
    }
    let later = view + 1 + dice.below(u64::from(u32::MAX - view)) as u32;
    (1, view, dice.one_of(&[view + 1, later, u32::MAX]))
}

/// Rising stamps: side by side or far apart, the first often 1, the last often the greatest.
fn stamps(dice: &mut Dice, rows: usize) -> Vec<u64> {
    let widest = GREATEST_STAMP / (rows as u64 + 1);
    let gap = dice.one_of(&[1, 3, 65_536, widest]);
    let mut last = 0;
    let mut stamps = Vec::with_capacity(rows);
    for _ in 0..rows {
        last += 1 + dice.below(gap);
        stamps.push(last);
    }
    let room = GREATEST_STAMP - last;
    let some = dice.below(room + 1);
    let higher = dice.one_of(&[0, some, room]);
    stamps.iter().map(|stamp| stamp + higher).collect()
}

/// A row with any pair of codes but 0 and 0: "Not both zero."
pub fn row(dice: &mut Dice, stamp: u64, (reads, writes): (usize, usize)) -> Row {
    let pair = 1 + dice.below(44) as u8;
    let (prepare, outcome) = (pair / 5, pair % 5);
    Row {
        stamp,
        retry: retry_stamp(dice, prepare, stamp),
        reads: accesses(dice, reads, |dice| version(dice, stamp)),
        writes: accesses(dice, writes, Dice::wide),
        prepare,
        outcome,
    }
}

/// "The retry stamp is a stamp for RETRY and 0 otherwise": any stamp will do.
fn retry_stamp(dice: &mut Dice, prepare: u8, stamp: u64) -> u64 {
    let any = 1 + dice.below(GREATEST_STAMP);
    if prepare == 4 || prepare == 8 {
        dice.one_of(&[1, stamp, any, GREATEST_STAMP])
    } else {
        0
    }
}

/// "the version seen (0 for never written, always below the stamp)"
fn version(dice: &mut Dice, stamp: u64) -> u64 {
    let any = dice.below(stamp);
    dice.one_of(&[0, any, stamp - 1])
}

/// Accesses of so many registers, "strictly rising".
fn accesses(dice: &mut Dice, count: usize, number: impl Fn(&mut Dice) -> u64) -> Vec<Access> {
    let mut registers = BTreeSet::new();
    while registers.len() < count {
        let any = dice.below(64) as u8;
        registers.insert(dice.one_of(&[0, any, any, 63]));
    }
    let with_number = |register| Access {
        register,
        number: number(dice),
    };
    registers.into_iter().map(with_number).collect()
}
