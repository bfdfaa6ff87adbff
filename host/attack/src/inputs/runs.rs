//! Runs of images for a merge.

use super::alterations::altered;
use super::{buffer, table_length};
use crate::both::{Both, Difference};
use samples::runs::{self, Run};
use samples::{message, mixtures, random, Dice, Row};

/// A merge with any output.
fn merge(both: &mut Both, dice: &mut Dice, run: &[u8], view: u32) -> Result<u64, Difference> {
    let length = table_length(dice);
    let mut out = buffer(dice, &[], length);
    both.merge(dice, run, view, &mut out)
}

/// Runs of few transactions that clash often, in their order, in another one, and altered.
pub fn clashing(both: &mut Both, dice: &mut Dice) -> Result<(), Difference> {
    for _ in 0..60 {
        let run = mixtures::run(dice);
        let bytes = run.bytes();
        merge(both, dice, &bytes, run.view)?;
        let shuffled = run.shuffled(dice);
        merge(both, dice, &shuffled.bytes(), run.view)?;
        let changed = wrong(dice, run);
        merge(both, dice, &changed.bytes(), changed.view)?;
        let spoilt = altered(dice, &bytes);
        merge(both, dice, &spoilt, changed.view)?;
    }
    Ok(())
}

/// The run with something about it that may make its tables wrong: a table more, a table less, another box, n, mode or view.
fn wrong(dice: &mut Dice, mut run: Run) -> Run {
    let place = dice.index(run.tables.len());
    let other = run.tables[dice.index(run.tables.len())].clone();
    let table = &mut run.tables[place];
    match dice.index(8) {
        0 => run.tables.push(other),
        1 => drop(run.tables.remove(place)),
        2 => table.box_number = other.box_number,
        3 => table.n = dice.one_of(&[3, 5, 7]),
        4 => (table.mode, table.promised) = (0, table.view),
        5 => table.promised = table.promised.saturating_add(1),
        6 => run.view = dice.one_of(&[0, 1, run.view.wrapping_add(1), run.view - 1]),
        _ => table.box_number = dice.below(7) as u8,
    }
    run
}

/// One image of a run with every kind of damage.
pub fn damaged(both: &mut Both, dice: &mut Dice) -> Result<(), Difference> {
    let run = mixtures::run(dice);
    let place = dice.index(run.tables.len());
    if run.tables[place].rows.len() < 3 {
        return merge(both, dice, &run.bytes(), run.view).map(drop);
    }
    let one_in = dice.one_of(&[31, 97]);
    let mut images: Vec<Vec<u8>> = run.tables.iter().map(|table| table.image()).collect();
    for bytes in super::damaged(dice, &run.tables[place], one_in) {
        images[place] = bytes;
        merge(both, dice, &images.concat(), run.view)?;
    }
    Ok(())
}

/// Tables of many rows, merged; at times they have more than 512 stamps in all.
pub fn large(both: &mut Both, dice: &mut Dice) -> Result<(), Difference> {
    for _ in 0..4 {
        let run = large_run(dice);
        merge(both, dice, &run.bytes(), run.view)?;
    }
    Ok(())
}

/// Tables of many rows, of which each box holds its share in its own state.
fn large_run(dice: &mut Dice) -> Run {
    let mut run = runs::quorum(dice);
    if dice.in_a_hundred(40) {
        runs::leave_behind(dice, &mut run, 1);
    }
    let stamps = dice.one_of(&[60, 200, 500, 512, 513, 700]);
    let transactions = random::table(dice, stamps).rows;
    let share = dice.one_of(&[20, 60, 95]);
    let agree = dice.one_of(&[0, 50, 100]);
    for place in 0..run.tables.len() {
        let mut rows: Vec<Row> = Vec::new();
        for row in &transactions {
            if dice.in_a_hundred(share) && rows.len() < 512 {
                rows.push(in_a_box(dice, row, agree));
            }
        }
        run.fill(dice, place, rows);
    }
    run
}

/// The row as one box may hold it: as it is, or tentative and without an outcome; seldom with another body or another
/// final result.
fn in_a_box(dice: &mut Dice, row: &Row, agree: u64) -> Row {
    let mut held = row.clone();
    if !dice.in_a_hundred(agree) {
        (held.prepare, held.retry, held.outcome) = (dice.one_of(&[1, 1, 2, 3]), 0, 0);
    }
    match dice.below(10_000) {
        0 => message::with_other_body(dice, &held),
        1 | 2 => Row {
            prepare: dice.one_of(&[5, 6]),
            retry: 0,
            ..held
        },
        _ => held,
    }
}
