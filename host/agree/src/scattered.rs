//! Tables that no history need lead to: rows in every state and every company.

use crate::case::{Case, SMALL};
use crate::group::message;
use crate::parts::{body_of, outcome, result};
use crate::plain::{table_of, Sent};
use reference::{HeldOutcome, HeldPrepare, Message, Mode, PrepareResult};
use reference::{Row, Rows, Table};
use samples::Dice;

/// A message to a box that holds rows of the stamps 3, 6, 9 and so on.
pub fn answer(dice: &mut Dice) -> Case {
    let season = dice.below(1 << 30);
    let rows = (1..=8).filter_map(|place| row(dice, season, 3 * place, 50));
    let rows: Rows = rows.take(SMALL.rows - 1).collect();
    let mut held = Table::beginning(3, 1, 2, rows);
    held.start_rows = dice.below(held.rows.len() as u64 + 1) as usize;
    // A stamp that a row may have, and one that none has: that one is checked.
    let (known, new) = (3 * (1 + dice.below(8)), 3 * dice.below(9) + 1);
    let message = match dice.below(10) {
        0..=3 => Message::ProposePrepare {
            stamp: new,
            body: body_of(season, new),
        },
        4 => Message::ProposePrepare {
            stamp: known,
            body: body_of(season, known),
        },
        5 => Message::ChangeView {
            view: 1 + dice.below(3) as u32,
        },
        6 => Message::Read {
            stamp: known,
            register: dice.below(2) as u8,
        },
        _ => message(dice, season, &held, 27),
    };
    Case::answer(&table_of(&held), Sent::of(&message))
}

/// A merge of f+1 tables, now and then of one more, with a box twice or with another promise.
pub fn merge(dice: &mut Dice) -> Case {
    let season = dice.below(1 << 30);
    let n = [3, 5, 7][dice.below(3) as usize];
    let odd = |dice: &mut Dice| u64::from(dice.in_a_hundred(1));
    // Now and then more than there may be rows.
    let stamps = if dice.in_a_hundred(10) { 15 } else { 6 };
    let count = u64::from(n) / 2 + 1 + odd(dice);
    let tables = (0..count).map(|place| Table {
        box_number: (place * 2 + odd(dice)) as u8 % n,
        n,
        mode: Mode::Changing {
            promised: 3 + odd(dice) as u32,
        },
        view: u32::from(dice.in_a_hundred(80)),
        start_rows: 0,
        rows: (1..=stamps)
            .filter_map(|place| row(dice, season, 3 * place, 14))
            .take(SMALL.rows)
            .collect(),
    });
    Case::merge(3, tables.map(|table| table_of(&table)).collect())
}

/// The row of a stamp, if there is one. Its result suits those of other tables mostly, and so does its outcome, which
/// it has so often in a hundred.
fn row(dice: &mut Dice, season: u64, stamp: u64, outcomes: u64) -> Option<(u64, Row)> {
    let usual = season + stamp / 3;
    let choice = [usual, usual, usual, dice.below(4)][dice.below(4) as usize];
    let prepare = match dice.below(10) {
        0 | 1 => None,
        2 if usual % 3 == 0 => Some(HeldPrepare::finalised(PrepareResult::Ok)),
        3 if dice.in_a_hundred(5) => Some(HeldPrepare::finalised(result(dice, choice))),
        _ => Some(HeldPrepare::tentative(result(dice, choice))),
    };
    let outcome = match dice.below(2) {
        _ if !dice.in_a_hundred(outcomes) => None,
        0 => Some(HeldOutcome::noted(outcome(dice, usual))),
        _ => Some(HeldOutcome::done(outcome(dice, usual))),
    };
    let row = Row {
        body: body_of(season + u64::from(dice.in_a_hundred(1)), stamp),
        prepare,
        outcome,
    };
    let held = prepare.is_some() || outcome.is_some();
    (held && dice.in_a_hundred(75)).then_some((stamp, row))
}
