//! None, one, two or three refusals at once. Which number wins is worked out here as well, from the paper's order alone.

use crate::lent::{Lent, LONG_ENOUGH, TOO_SHORT};
use samples::runs::{self, Run};
use samples::{damage, message, random, transactions, Dice, Row, MOST_ROWS};

/// "The first that applies wins, in this order", of those that a merge can meet.
const ORDER: [u8; 6] = [1, 2, 11, 5, 6, 7];

/// Every set of at most three refusals, in many runs; those that need more than 512 stamps a few times.
pub fn all_sets(lent: &mut Lent) {
    for set in 0..1 << ORDER.len() {
        let chosen = (0..ORDER.len()).filter(|place| set & (1 << place) != 0);
        let wanted: Vec<u8> = chosen.map(|place| ORDER[place]).collect();
        if wanted.len() <= 3 {
            let times = if wanted.contains(&7) { 40 } else { 2_000 };
            (0..times).for_each(|_| asked(lent, &wanted));
        }
    }
}

/// Has a run merged that meets these refusals and no other.
fn asked(lent: &mut Lent, wanted: &[u8]) {
    let (bytes, view) = made(&mut lent.dice, wanted);
    let lengths: &[usize] = if wanted.contains(&1) {
        &TOO_SHORT
    } else {
        &LONG_ENOUGH
    };
    let length = lent.dice.one_of(lengths);
    let number = lent.ask_with(&bytes, view, length);
    let first = ORDER.iter().find(|number| wanted.contains(number));
    assert_eq!(number, first.copied().unwrap_or(0), "{:?}", wanted);
}

/// A run that meets these refusals, and the view that its merge is for.
fn made(dice: &mut Dice, wanted: &[u8]) -> (Vec<u8>, u32) {
    let mut run = consistent(dice, wanted.contains(&7));
    let places = two_of(dice, run.used());
    if wanted.contains(&5) {
        two_bodies(dice, &mut run, places);
    }
    if wanted.contains(&6) {
        contradict(dice, &mut run, places);
    }
    if wanted.contains(&11) {
        wrong(dice, &mut run);
    }
    if wanted.contains(&2) {
        return (no_images(dice, &run), run.view);
    }
    (run.bytes(), run.view)
}

fn two_of(dice: &mut Dice, mut used: Vec<usize>) -> (usize, usize) {
    dice.shuffle(&mut used);
    (used[0], used[1])
}

/// A run that a merge can be made of, with at least two used tables, or one that has too many stamps.
fn consistent(dice: &mut Dice, too_many: bool) -> Run {
    let mut run = runs::quorum(dice);
    runs::leave_behind(dice, &mut run, 2);
    let used = run.used();
    let mut rows = if too_many {
        // A table has room for two more, so that a stamp can be put into any two.
        let most = used.len() * (MOST_ROWS - 2);
        let some = MOST_ROWS + 1 + dice.index(most - MOST_ROWS);
        let stamps = dice.one_of(&[MOST_ROWS + 1, some, most]);
        random::table(dice, stamps).rows
    } else {
        transactions::some(dice)
    };
    rows.iter_mut().for_each(|row| any_codes(dice, row));
    for index in 0..run.tables.len() {
        let place = used.iter().position(|place| *place == index);
        let own: Vec<Row> = match place {
            Some(place) => every(&rows, used.len(), place),
            None => random::table(dice, 7).rows,
        };
        run.fill(dice, index, own);
    }
    run
}

/// Every so-many-th row, from a place on; at least one.
fn every(rows: &[Row], step: usize, place: usize) -> Vec<Row> {
    rows.iter().skip(place).step_by(step).cloned().collect()
}

fn any_codes(dice: &mut Dice, row: &mut Row) {
    let codes = 1 + dice.below(44) as u8;
    (row.prepare, row.outcome) = (codes / 5, codes % 5);
    row.retry = if matches!(row.prepare, 4 | 8) { 77 } else { 0 };
}

/// The rows of one stamp in two tables; it is put into those that lack it.
fn one_stamp(dice: &mut Dice, run: &mut Run, places: (usize, usize)) -> (usize, usize) {
    let rows = &run.tables[places.0].rows;
    // The first, the last or any stamp, so that refusals come early and late, and often of one stamp.
    let any = dice.index(rows.len());
    let row = rows[dice.one_of(&[0, any, rows.len() - 1])].clone();
    let index = |run: &mut Run, place: usize| {
        let rows = &mut run.tables[place].rows;
        rows.binary_search_by_key(&row.stamp, |held| held.stamp)
            .unwrap_or_else(|index| {
                rows.insert(index, row.clone());
                index
            })
    };
    (index(run, places.0), index(run, places.1))
}

fn two_bodies(dice: &mut Dice, run: &mut Run, places: (usize, usize)) {
    let (_, index) = one_stamp(dice, run, places);
    let row = &mut run.tables[places.1].rows[index];
    *row = message::with_other_body(dice, row);
}

/// Two unequal finals, two opposite outcomes, or both.
fn contradict(dice: &mut Dice, run: &mut Run, places: (usize, usize)) {
    let (one, other) = one_stamp(dice, run, places);
    let (finals, outcomes) = (unequal_finals(dice), opposite_outcomes(dice));
    let how = dice.index(3);
    for (which, (place, index)) in [(places.0, one), (places.1, other)].into_iter().enumerate() {
        let row = &mut run.tables[place].rows[index];
        if how != 1 {
            (row.prepare, row.retry) = finals[which];
        }
        if how != 0 {
            row.outcome = outcomes[which];
        }
    }
}

/// Two final prepare bytes with their retry stamps, also two RETRY whose stamps differ in one byte.
fn unequal_finals(dice: &mut Dice) -> [(u8, u64); 2] {
    let mut finals = [(5, 0), (6, 0), (7, 0), (8, 1), (8, 1 + (1 << 40))];
    dice.shuffle(&mut finals);
    [finals[0], finals[1]]
}

/// A commit and an abort, each noted or done.
fn opposite_outcomes(dice: &mut Dice) -> [u8; 2] {
    let mut outcomes = [dice.one_of(&[1, 3]), dice.one_of(&[2, 4])];
    dice.shuffle(&mut outcomes);
    outcomes
}

/// "not exactly f+1 images, unequal n, a box twice, mode 0, or promised not v"
pub fn wrong(dice: &mut Dice, run: &mut Run) {
    let index = dice.index(run.tables.len());
    match dice.index(8) {
        0 => drop(run.tables.remove(index)),
        1 => one_more(dice, run),
        2 => other_n(dice, run, index),
        3 => {
            let other = (index + 1 + dice.index(run.tables.len() - 1)) % run.tables.len();
            run.tables[index].box_number = run.tables[other].box_number;
        }
        4 => (run.tables[index].mode, run.tables[index].promised) = (0, run.tables[index].view),
        5 => (run.tables[index].mode, run.tables[index].view) = (0, run.view),
        6 => run.view = dice.one_of(&[0, run.view - 1, run.view.wrapping_add(1), run.newest()]),
        _ => other_promise(dice, run, index),
    }
}

/// The table of a box that is not there yet.
fn one_more(dice: &mut Dice, run: &mut Run) {
    let is_there = |number: &u8| run.tables.iter().any(|table| table.box_number == *number);
    let mut table = run.tables[dice.index(run.tables.len())].clone();
    table.box_number = (0..table.n).find(|number| !is_there(number)).expect("one");
    let place = dice.index(run.tables.len() + 1);
    run.tables.insert(place, table);
}

fn other_n(dice: &mut Dice, run: &mut Run, index: usize) {
    let table = &mut run.tables[index];
    let others: Vec<u8> = [3, 5, 7].into_iter().filter(|n| *n != table.n).collect();
    table.n = dice.one_of(&others);
    table.box_number %= table.n;
}

fn other_promise(dice: &mut Dice, run: &mut Run, index: usize) {
    let view = run.view;
    let table = &mut run.tables[index];
    let sooner = table.view + 1;
    let later = if view < u32::MAX { view + 1 } else { sooner };
    table.promised = dice.one_of(&[sooner, later]);
    if table.promised == view {
        // There is no promise beside this one, so that the box has made none.
        (table.mode, table.promised) = (0, table.view);
    }
}

/// The run with a rule of an image broken, cut short, followed by bytes, or none at all.
fn no_images(dice: &mut Dice, run: &Run) -> Vec<u8> {
    let mut images: Vec<Vec<u8>> = run.tables.iter().map(|table| table.image()).collect();
    let index = dice.index(images.len());
    let last = images.len() - 1;
    match dice.index(6) {
        0 => return Vec::new(),
        1 => {
            let cut = 1 + dice.index(images[last].len() - 1);
            images[last].truncate(cut);
        }
        2 => images[index].push(dice.byte().max(2)),
        3 => {
            let end = dice.one_of(&[1, 23, 24, 57]);
            images[last].extend(vec![0; end]);
        }
        _ => damage::spoil(dice, &mut images[index]),
    }
    images.concat()
}
