//! Few transactions over few registers, with small stamps, so that they clash often.

use samples::{Access, Dice, Row};
use std::ops::Range;

/// 4 to 7 transactions in any order, over two or three registers.
pub fn few(dice: &mut Dice) -> Vec<Row> {
    let count = 4 + dice.below(4);
    so_many(dice, count)
}

/// More transactions than a table of so many rows holds, and twice as many at most.
pub fn more_than(dice: &mut Dice, rows: usize) -> Vec<Row> {
    let count = rows as u64 + 1 + dice.below(rows as u64);
    so_many(dice, count)
}

fn so_many(dice: &mut Dice, count: u64) -> Vec<Row> {
    let registers = 2 + dice.below(2) as u8;
    let mut rows = Vec::new();
    for place in 1..=count {
        rows.push(transaction(dice, 10 * place, registers));
    }
    dice.shuffle(&mut rows);
    rows
}

/// A body of 1 to 3 accesses. The versions read are 0 or the stamps of others.
fn transaction(dice: &mut Dice, stamp: u64, registers: u8) -> Row {
    let (reads, writes) = dice.one_of(&[(1, 0), (0, 1), (1, 1), (1, 1), (2, 1), (1, 2)]);
    let mut read = Vec::new();
    for register in some_of(dice, registers, reads) {
        let lower = 10 * dice.below(stamp / 10);
        let number = dice.one_of(&[0, lower]);
        read.push(Access { register, number });
    }
    let write = |register| Access {
        register,
        number: 1_000 + stamp,
    };
    let written = some_of(dice, registers, writes).map(write).collect();
    Row::of(stamp, read, written)
}

/// So many registers that lie side by side.
fn some_of(dice: &mut Dice, registers: u8, count: u8) -> Range<u8> {
    let first = dice.below(u64::from(registers - count) + 1) as u8;
    first..first + count
}

/// Whether one of the two read what the other writes between that version and its own stamp.
pub fn clash(one: &Row, other: &Row) -> bool {
    overwrites(one, other) || overwrites(other, one)
}

fn overwrites(reader: &Row, writer: &Row) -> bool {
    let t = writer.stamp;
    let between = |read: &Access| read.number < t && t < reader.stamp;
    let mut reads = reader.reads.iter().filter(|read| between(read));
    reads.any(|read| {
        writer
            .writes
            .iter()
            .any(|write| write.register == read.register)
    })
}
