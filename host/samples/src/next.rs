//! Messages to one box that go on from what it holds: over few transactions, so that clashes, held rows, outcomes and
//! changes of view are frequent.

use crate::message as make;
use crate::{Dice, Row, Table, GREATEST_STAMP};

/// A box as a sender of messages may know it: by the image that its table buffer begins with.
#[derive(Clone, Copy)]
struct Held<'a> {
    image: &'a [u8],
    transactions: &'a [Row],
}

impl<'a> Held<'a> {
    /// A number of 4 bytes in the header.
    fn number_at(&self, at: usize) -> u32 {
        u32::from_be_bytes(self.image[at..at + 4].try_into().expect("four bytes"))
    }

    fn view(&self) -> u32 {
        self.number_at(8)
    }

    fn promised(&self) -> u32 {
        self.number_at(12)
    }

    fn is_changing(&self) -> bool {
        self.image[3] == 1
    }

    /// Half of the time, a transaction that the box holds, if there is one.
    fn transaction(&self, dice: &mut Dice) -> Option<&'a Row> {
        let rows = self.number_at(4) as usize;
        if rows == 0 || dice.in_a_hundred(50) {
            return None;
        }
        let at = 24 + 24 * dice.index(rows);
        let stamp = &self.image[at..at + 8];
        let mut all = self.transactions.iter();
        all.find(|row| row.stamp.to_be_bytes() == stamp)
    }
}

/// A message that a box with this image may well get.
pub fn message(dice: &mut Dice, image: &[u8], transactions: &[Row]) -> Vec<u8> {
    let held = Held {
        image,
        transactions,
    };
    let kinds: &[u8] = if held.is_changing() {
        &[1, 2, 3, 4, 5, 6, 6, 6, 6, 6, 7]
    } else {
        &[
            1, 1, 1, 1, 1, 1, 1, 2, 2, 2, 3, 3, 3, 4, 4, 4, 5, 6, 7, 7, 7,
        ]
    };
    let any = &transactions[dice.index(transactions.len())];
    let row = held.transaction(dice).unwrap_or(any);
    let message = match dice.one_of(kinds) {
        5 => make::change_view(later_view(dice, held)),
        6 => start(dice, held),
        kind => about(dice, held.view(), kind, row),
    };
    if dice.in_a_hundred(4) {
        return make::spoiled(dice, &message);
    }
    message
}

/// A message about a transaction. Most have its body, its box's view, and for each stamp one outcome.
fn about(dice: &mut Dice, view: u32, kind: u8, row: &Row) -> Vec<u8> {
    let other = make::with_other_body(dice, row);
    let row = if dice.in_a_hundred(94) { row } else { &other };
    let other_view = dice.one_of(&[view.wrapping_sub(1), view.wrapping_add(1), 0]);
    let view = if dice.in_a_hundred(92) {
        view
    } else {
        other_view
    };
    let usual = if row.stamp % 5 < 3 { 1 } else { 2 };
    let verdict = dice.one_of(&[usual, usual, usual, usual, usual, usual, 1, 2]);
    match kind {
        1 => make::propose_prepare(row),
        2 => make::finalise_prepare(row.stamp, view, result(dice, row.stamp)),
        3 => make::propose_outcome(row, verdict),
        4 => make::finalise_outcome(row.stamp, view, verdict),
        _ => {
            let stamp = dice.one_of(&[row.stamp, row.stamp, row.stamp - 1, GREATEST_STAMP]);
            make::read(stamp, dice.one_of(&[0, 0, 1, 2, 62, 63]))
        }
    }
}

/// A result with its retry stamp; few different ones, so that equal final results are frequent.
fn result(dice: &mut Dice, stamp: u64) -> (u8, u64) {
    let later = dice.one_of(&[1, stamp, GREATEST_STAMP]);
    dice.one_of(&[(1, 0), (1, 0), (1, 0), (2, 0), (3, 0), (4, later)])
}

/// A view above what is promised, or just not.
fn later_view(dice: &mut Dice, held: Held) -> u32 {
    let promised = held.promised();
    let next = promised.saturating_add(1);
    let far = promised.saturating_add(1 + dice.below(9) as u32);
    let choices = [held.view(), promised, next, next, next, far, u32::MAX];
    // The last view of all ends a history's changes, so it comes seldom.
    let last = if dice.in_a_hundred(3) { 7 } else { 6 };
    dice.one_of(&choices[..last])
}

/// A view started with what the box holds, or with another table of the same transactions; sometimes with one that is not
/// settled.
fn start(dice: &mut Dice, held: Held) -> Vec<u8> {
    let least = dice.one_of(&[0, held.promised()]);
    let view = later_view(dice, held).max(least);
    let image = match dice.index(10) {
        0 => held.image.to_vec(),
        1..=3 => make::settled(&table_of_some(dice, held).image(), view),
        4 => {
            let mut image = table_of_some(dice, held);
            image.view = view;
            image.promised = view;
            image.box_number = (view % u32::from(image.n)) as u8;
            image.image()
        }
        _ => make::settled(held.image, view),
    };
    make::start_view(view, &image)
}

/// Some of the transactions in a table, with any codes.
fn table_of_some(dice: &mut Dice, held: Held) -> Table {
    let most = dice.one_of(&[0, 30, 60, 100]);
    let mut rows = held.transactions.to_vec();
    rows.retain(|_| dice.in_a_hundred(most));
    for row in &mut rows {
        let codes = 1 + dice.below(44) as u8;
        row.prepare = codes / 5;
        row.outcome = codes % 5;
        row.retry = if row.prepare % 4 == 0 && row.prepare > 0 {
            9
        } else {
            0
        };
    }
    Table {
        box_number: 0,
        n: held.image[2],
        mode: 0,
        view: 0,
        promised: 0,
        start_rows: rows.len() as u32,
        rows,
    }
}
