//! The merge as the proved library makes it: a survey of all stamps decides, then each stamp's row is written in its place
//! with its body behind all rows, and the rows that still wait are checked there.

use super::answer::{put_prepare, TABLE_BYTES};
use super::check::{check, Transaction};
use super::gather::{State, Used};
use super::run::{agreement, are_wrong, is_whole, newest_view};
use super::search::Search;
use super::valid::{Row, MOST_ROWS};
use super::{put_u32, put_u64, u32_at, HEADER_LENGTH, ROW_LENGTH};
use std::marker::PhantomData;

const OK: u8 = 1;
const FINAL_OK: u8 = 5;
const FINAL_ABORT: u8 = 6;
/// So much is added to the code of a result to make it final.
const FINAL: u8 = 4;

/// The output written, if nothing refuses it; returns the number.
pub fn merge<S: Search>(run: &[u8], view: u32, out: &mut [u8]) -> u8 {
    if out.len() < TABLE_BYTES {
        return 1;
    }
    if !is_whole(run) {
        return 2;
    }
    if are_wrong(run, view) {
        return 11;
    }
    let used = Used::<S> {
        run,
        newest: newest_view(run),
        search: PhantomData,
    };
    let seen = survey(used);
    let number = seen.number();
    if number == 0 {
        let n = run[2];
        let end = write_rows(out, used, agreement(n), seen.stamps as usize);
        put_header(out, n, view, seen.stamps, end);
        check_rows(out, used, agreement(n), false);
        check_rows(out, used, agreement(n), true);
    }
    number
}

/// What a look at all stamps found.
#[derive(Default)]
pub(super) struct Survey {
    pub(super) bodies: bool,
    pub(super) contradiction: bool,
    pub(super) stamps: u32,
}

impl Survey {
    pub(super) fn number(&self) -> u8 {
        match (self.bodies, self.contradiction) {
            (true, _) => 5,
            (false, true) => 6,
            (false, false) if self.stamps > MOST_ROWS => 7,
            (false, false) => 0,
        }
    }
}

fn survey<S: Search>(used: Used<S>) -> Survey {
    let mut seen = Survey::default();
    let mut next = used.next_stamp(0);
    while let Some(stamp) = next {
        seen.bodies |= used.two_bodies(stamp);
        seen.contradiction |= used.state(stamp).contradicts();
        seen.stamps += 1;
        next = used.next_stamp(stamp);
    }
    seen
}

/// The header of a table of so many rows that ends there, with which the view begins.
pub(super) fn put_header(out: &mut [u8], n: u8, view: u32, rows: u32, end: usize) {
    let box_number = (view % u32::from(n)) as u8;
    out[..4].copy_from_slice(&[1, box_number, n, 0]);
    let fields = [rows, view, view, rows, end as u32];
    for (place, number) in fields.into_iter().enumerate() {
        put_u32(out, 4 + 4 * place, number);
    }
}

/// The rows of all stamps, as many as `rows`, with their bodies behind; returns where the last body ends.
fn write_rows<S: Search>(out: &mut [u8], used: Used<S>, agreement: usize, rows: usize) -> usize {
    let mut due = HEADER_LENGTH + ROW_LENGTH * rows;
    let mut index = 0;
    let mut next = used.next_stamp(0);
    while let Some(stamp) = next {
        due = write_stamp(out, index, due, used, stamp, agreement);
        index += 1;
        next = used.next_stamp(stamp);
    }
    due
}

fn write_stamp<S: Search>(
    out: &mut [u8],
    index: usize,
    due: usize,
    used: Used<S>,
    stamp: u64,
    agreement: usize,
) -> usize {
    let (first, held) = match used.first(stamp) {
        Some(first) => first,
        None => return due,
    };
    let state = used.state(stamp);
    let (prepare, retry) = unchecked(&state, || used.agreed(stamp, agreement));
    let codes = [held.reads, held.writes, prepare, state.outcome()];
    put_row(out, index, due, [stamp, retry], codes, held.body(first))
}

/// A row in its place, and its body where it is due; returns where the next one is.
pub(super) fn put_row(
    out: &mut [u8],
    index: usize,
    due: usize,
    stamps: [u64; 2],
    codes: [u8; 4],
    body: &[u8],
) -> usize {
    let at = HEADER_LENGTH + ROW_LENGTH * index;
    let row = &mut out[at..at + ROW_LENGTH];
    put_u64(row, 0, stamps[0]);
    put_u64(row, 8, stamps[1]);
    put_u32(row, 16, due as u32);
    row[20..].copy_from_slice(&codes);
    let end = due + body.len();
    out[due..end].copy_from_slice(body);
    end
}

/// The prepare byte and the retry stamp of a stamp's row; 0 and 0 if there is none, or if a check is still to come.
pub(super) fn unchecked(state: &State, agreed: impl FnOnce() -> Option<(u8, u64)>) -> (u8, u64) {
    if state.decided.0 != 0 {
        return state.decided;
    }
    match (agreed(), state.outcome()) {
        (Some((OK, _)), 0) => (0, 0),
        (Some((code, retry)), _) => (code + FINAL, retry),
        (None, 3) if state.held => (FINAL_OK, 0),
        (None, 4) if state.held => (FINAL_ABORT, 0),
        (None, _) => (0, 0),
    }
}

/// One turn of the checks, in rising order: the agreed rows, or the open ones.
fn check_rows<S: Search>(out: &mut [u8], used: Used<S>, agreement: usize, open: bool) {
    let rows = u32_at(out, 4) as usize;
    for index in 0..rows {
        let row = Row::read(out, index);
        if waits(&row) && used.agreed(row.stamp, agreement).is_none() == open {
            check_row(out, rows, index);
        }
    }
}

pub(super) fn waits(row: &Row) -> bool {
    row.prepare == 0 && row.outcome == 0
}

pub(super) fn check_row(out: &mut [u8], rows: usize, index: usize) {
    let row = Row::read(out, index);
    let (code, retry) = check(out, rows, &Transaction::of(&row, out));
    put_prepare(out, index, code + FINAL, retry);
}

#[cfg(test)]
mod tests {
    use super::super::cursors;
    use super::super::search::{Halving, Walk};
    use super::{merge, TABLE_BYTES};
    use samples::{message, random, transactions, Dice, Row, Table, MOST_ROWS};

    const VIEW: u32 = 9;

    type Merge = fn(&[u8], u32, &mut [u8]) -> u8;

    /// The number for a run, on which all twins and the second program have to agree, as on every byte of the output.
    fn merged(run: &[u8], length: usize) -> u8 {
        let mut by_second = vec![0xee; length];
        let number = reference::merge(run, VIEW, &mut by_second);
        let twins: [Merge; 3] = [merge::<Halving>, merge::<Walk>, cursors::merge];
        for (twin, merge) in twins.iter().enumerate() {
            let mut out = vec![0xee; length];
            assert_eq!(merge(run, VIEW, &mut out), number, "twin {}", twin);
            assert!(out == by_second, "twin {}, number {}", twin, number);
        }
        number
    }

    /// What a table holds of the transactions: for most, nothing contradicts what another table holds.
    fn rows(dice: &mut Dice, transactions: &[Row]) -> Vec<Row> {
        let mut rows = transactions.to_vec();
        rows.retain(|_| dice.in_a_hundred(70));
        for row in &mut rows {
            row.prepare = dice.one_of(&[0, 1, 1, 1, 2, 3, 4, 5]);
            row.retry = u64::from(row.prepare == 4);
            row.outcome = dice.one_of(&[0, 0, 0, 1 + (row.stamp % 2) as u8]);
            match dice.below(300) {
                0 => *row = message::with_other_body(dice, row),
                1 => (row.prepare, row.retry) = (6, 0),
                2 => row.outcome = dice.one_of(&[3, 4]),
                _ => {}
            }
        }
        rows.retain(|row| row.prepare != 0 || row.outcome != 0);
        rows
    }

    /// Tables of a quorum, mostly; some are left behind in an older view, and a few are full of other stamps.
    fn run(dice: &mut Dice, full: bool) -> Vec<u8> {
        let n = dice.one_of(&[3, 5, 7]);
        let transactions = transactions::some(dice);
        let mut tables: Vec<Table> = Vec::new();
        for place in 0..n / 2 + 1 {
            let rows = match full {
                true => random::table(dice, MOST_ROWS).rows,
                false => rows(dice, &transactions),
            };
            tables.push(Table {
                box_number: if dice.in_a_hundred(98) { place } else { 0 },
                n,
                mode: 1,
                view: dice.one_of(&[3, 4, 4, 4]),
                promised: VIEW + u32::from(dice.in_a_hundred(2)),
                start_rows: 0,
                rows,
            });
        }
        tables.iter().flat_map(Table::image).collect()
    }

    #[test]
    fn all_twins_merge_as_the_second_program() {
        let mut dice = Dice::seeded(1);
        let mut met = [0; 12];
        for turn in 0..30_000 {
            let mut run = run(&mut dice, turn % 1_000 == 0);
            if dice.in_a_hundred(10) {
                let place = dice.index(run.len());
                run[place] ^= dice.one_of(&[1, 4, 255]);
            }
            let short = dice.in_a_hundred(2);
            let length = TABLE_BYTES - usize::from(short);
            met[usize::from(merged(&run, length))] += 1;
        }
        for number in [0, 1, 2, 5, 6, 7, 11] {
            assert!(met[number] > 9, "number {}: {:?}", number, met);
        }
    }
}
