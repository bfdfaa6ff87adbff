//! Runs of tables with few transactions over few registers, agreed, open and final in every mixture, so that checks clash
//! often.

use crate::runs::{self, Run};
use crate::{message, random, transactions, Dice, Row};

/// A run of tables that hold the same transactions, some of them in older views. In most nothing contradicts anything.
pub fn run(dice: &mut Dice) -> Run {
    let mut run = runs::quorum(dice);
    if dice.in_a_hundred(50) {
        runs::leave_behind(dice, &mut run, 1);
    }
    let transactions = transactions::some(dice);
    let stories: Vec<Story> = transactions
        .iter()
        .map(|row| Story::of(dice, row))
        .collect();
    let strange = dice.one_of(&[0, 0, 0, 0, 0, 0, 10]);
    let newest = run.newest();
    for index in 0..run.tables.len() {
        let rows = if run.tables[index].view == newest {
            let rows = stories.iter().map(|story| story.in_a_box(dice, strange));
            rows.flatten().collect()
        } else {
            of_an_older_view(dice, &transactions)
        };
        run.fill(dice, index, rows);
    }
    run
}

/// What the boxes hold of one transaction.
struct Story {
    row: Row,
    /// How many in a hundred tables hold it.
    held: u64,
    /// The code and the retry stamp that most boxes gave, and that of the coordinator.
    usual: (u8, u64),
    decided: (u8, u64),
    /// How many in a hundred boxes have no prepare, gave the usual result, hold it final.
    none: u64,
    agree: u64,
    finals: u64,
    /// Commit or abort, and how many in a hundred boxes heard of it.
    verdict: u8,
    heard: u64,
}

impl Story {
    fn of(dice: &mut Dice, row: &Row) -> Story {
        Story {
            row: row.clone(),
            held: dice.one_of(&[40, 70, 100, 100]),
            usual: result(dice, row.stamp),
            decided: result(dice, row.stamp),
            none: dice.one_of(&[0, 0, 0, 20, 100]),
            agree: dice.one_of(&[0, 60, 100, 100]),
            finals: dice.one_of(&[0, 0, 0, 30]),
            verdict: dice.one_of(&[1, 1, 2]),
            heard: dice.one_of(&[0, 0, 0, 30, 80]),
        }
    }

    /// The row of one box, if it has one; some in a hundred are strange.
    fn in_a_box(&self, dice: &mut Dice, strange: u64) -> Option<Row> {
        let mut row = self.row.clone();
        if !dice.in_a_hundred(self.held) {
            return None;
        }
        (row.prepare, row.retry) = self.prepare(dice);
        if dice.in_a_hundred(self.heard) {
            row.outcome = self.verdict + dice.one_of(&[0, 2]);
        }
        if dice.in_a_hundred(strange) {
            row = made_strange(dice, row);
        }
        (row.prepare != 0 || row.outcome != 0).then_some(row)
    }

    fn prepare(&self, dice: &mut Dice) -> (u8, u64) {
        if dice.in_a_hundred(self.none) {
            (0, 0)
        } else if dice.in_a_hundred(self.finals) {
            (self.decided.0 + 4, self.decided.1)
        } else if dice.in_a_hundred(self.agree) {
            self.usual
        } else {
            result(dice, self.row.stamp)
        }
    }
}

/// A result with its retry stamp; few different ones, so that boxes agree often, and some that differ in one byte alone.
fn result(dice: &mut Dice, stamp: u64) -> (u8, u64) {
    let retry = dice.one_of(&[1, 1 + (1 << 40), stamp]);
    dice.one_of(&[(1, 0), (1, 0), (1, 0), (2, 0), (3, 0), (4, retry)])
}

/// The row with another body, another final result or the other outcome.
fn made_strange(dice: &mut Dice, mut row: Row) -> Row {
    match dice.index(3) {
        0 => return message::with_other_body(dice, &row),
        1 => {
            let (code, retry) = result(dice, row.stamp);
            (row.prepare, row.retry) = (code + 4, retry);
        }
        _ => row.outcome = 1 + dice.below(4) as u8,
    }
    row
}

/// Rows that must not matter: with any bodies and any codes, also about other stamps, and now and then many.
fn of_an_older_view(dice: &mut Dice, transactions: &[Row]) -> Vec<Row> {
    if dice.in_a_hundred(30) {
        let rows = dice.one_of(&[1, 5, 20, 60]);
        return random::table(dice, rows).rows;
    }
    let mut rows = transactions.to_vec();
    rows.retain(|_| dice.in_a_hundred(80));
    for row in &mut rows {
        let codes = 1 + dice.below(44) as u8;
        (row.prepare, row.outcome) = (codes / 5, codes % 5);
        row.retry = if matches!(row.prepare, 4 | 8) { 9 } else { 0 };
        if dice.in_a_hundred(30) {
            *row = message::with_other_body(dice, row);
        }
    }
    rows
}
