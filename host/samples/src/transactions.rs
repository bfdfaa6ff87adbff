//! Transactions over few registers and few stamps, so that they clash often.

use crate::{Access, Dice, Row, GREATEST_STAMP};
use std::collections::BTreeSet;

const REGISTERS: [u8; 4] = [0, 1, 2, 63];

/// Transactions that may meet in one table, in the order of their stamps.
pub fn some(dice: &mut Dice) -> Vec<Row> {
    let count = 4 + dice.below(10);
    let apart = dice.one_of(&[1, 2, 65_536]);
    let first = dice.one_of(&[1, 1, 65_537, GREATEST_STAMP - apart * (count - 1)]);
    let stamps: Vec<u64> = (0..count).map(|place| first + apart * place).collect();
    let row = |stamp: &u64| transaction(dice, *stamp, &stamps);
    stamps.iter().map(row).collect()
}

fn transaction(dice: &mut Dice, stamp: u64, stamps: &[u64]) -> Row {
    let mut reads = registers(dice);
    let writes = registers(dice);
    if reads.is_empty() && writes.is_empty() {
        reads.insert(0);
    }
    let lower: Vec<u64> = stamps.iter().copied().filter(|s| *s < stamp).collect();
    let read = |register| Access {
        register,
        number: version(dice, stamp, &lower),
    };
    let reads = reads.into_iter().map(read).collect();
    let write = |register| Access {
        register,
        number: dice.wide(),
    };
    Row::of(stamp, reads, writes.into_iter().map(write).collect())
}

/// None, one or some of the few registers.
fn registers(dice: &mut Dice) -> BTreeSet<u8> {
    let count = dice.one_of(&[0, 1, 1, 2, 4]);
    (0..count).map(|_| dice.one_of(&REGISTERS)).collect()
}

/// A version below the stamp: none, one that another transaction may write, or one beside it.
fn version(dice: &mut Dice, stamp: u64, lower: &[u64]) -> u64 {
    if lower.is_empty() {
        return dice.one_of(&[0, stamp - 1]);
    }
    let written = dice.one_of(lower);
    dice.one_of(&[
        0,
        written,
        written,
        written - 1,
        (written + 1).min(stamp - 1),
    ])
}
