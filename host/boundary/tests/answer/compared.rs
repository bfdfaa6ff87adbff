//! How many rows the search for a stamp compares, for every row and every gap of many tables: by the library as by the
//! second program, which halves a list of stamps.

use crate::lent::Lent;
use crate::shares::{add_all, percents};
use samples::message as make;
use samples::{random, spaced, Dice, Row, Table};
use std::fmt::{self, Display, Formatter};
use std::io::{self, Write};
use std::ops::RangeInclusive;

/// The fewest and the most rows of the tables of each part.
const PARTS: [(usize, usize); 4] = [(0, 40), (63, 65), (510, 510), (512, 512)];

/// The first stamp of a table, and how far apart its stamps are, so that there is one in every gap: those of tables
/// with an even and with an odd number of rows.
const STAMPS: [(u64, u64); 2] = [(2, 2), (1 << 47, 65_536)];

/// "at most 10 for 512 rows", and the numbers up to 11.
const COUNTS: usize = 11;
const NUMBERS: usize = 12;

/// The numbers that are met, each with the counts that it can come with. A row that is held was compared itself, so
/// there is no 0; of these tables only that of 512 rows is full, and a stamp that is not among them is missed after 9
/// comparisons or 10.
const POSSIBLE: [(usize, RangeInclusive<usize>); 7] = [
    (0, 0..=10),
    (4, 0..=0),
    (5, 1..=10),
    (6, 1..=10),
    (7, 9..=10),
    (8, 0..=10),
    (9, 0..=0),
];

/// How often an answer of each number came with each count.
#[derive(Default)]
struct Compared {
    counts: [[u64; COUNTS]; NUMBERS],
}

impl Compared {
    fn count(&mut self, word: u64) {
        let (number, rows) = (word as u8, (word >> 16) as usize);
        self.counts[usize::from(number)][rows] += 1;
    }

    fn add(&mut self, other: &Compared) {
        let numbers = self.counts.iter_mut().zip(&other.counts);
        numbers.for_each(|(here, there)| add_all(here, there));
    }

    /// That every count which a number can have was met, and no other was.
    fn assert_all_met(&self) {
        for (number, counts) in self.counts.iter().enumerate() {
            let listed = POSSIBLE.iter().find(|(other, _)| *other == number);
            for (rows, times) in counts.iter().enumerate() {
                let possible = listed.map_or(false, |(_, possible)| possible.contains(&rows));
                let right = (*times > 0) == possible;
                assert!(right, "number {}, {} rows: {} times", number, rows, times);
            }
        }
    }
}

/// A column for each number, a line for each count.
impl Display for Compared {
    fn fmt(&self, f: &mut Formatter) -> fmt::Result {
        write!(f, "number          ")?;
        let mut numbers = POSSIBLE.iter();
        numbers.try_for_each(|(number, _)| write!(f, "{:>15}", number))?;
        for rows in 0..COUNTS {
            write!(f, "\nrows compared {:2}", rows)?;
            let mut numbers = POSSIBLE.iter().map(|(number, _)| &self.counts[*number]);
            numbers.try_for_each(|counts| write!(f, "{:>15}", percents(counts, rows)))?;
        }
        Ok(())
    }
}

/// Messages 1 to 4 about a transaction, for the box's view and for another one.
fn messages(row: &Row, view: u32) -> Vec<Vec<u8>> {
    vec![
        make::propose_prepare(row),
        make::finalise_prepare(row.stamp, view, (1, 0)),
        make::finalise_prepare(row.stamp, view + 1, (1, 0)),
        make::propose_outcome(row, 1),
        make::finalise_outcome(row.stamp, view, 1),
        make::finalise_outcome(row.stamp, view + 1, 1),
    ]
}

/// Those that contradict what such a message would have a row hold: another body, result and outcome.
fn contradictions(dice: &mut Dice, row: &Row, view: u32) -> Vec<Vec<u8>> {
    let other = make::with_other_body(dice, row);
    vec![
        make::propose_prepare(&other),
        make::propose_outcome(&other, 1),
        make::finalise_prepare(row.stamp, view, (2, 0)),
        make::propose_outcome(row, 2),
        make::finalise_outcome(row.stamp, view, 2),
    ]
}

/// Every message about a stamp, which the table holds or not; one of them also to a box that is changing its view.
fn asked_about(lent: &mut Lent, table: &Table, stamp: u64, compared: &mut Compared) {
    let held = table.rows.iter().find(|row| row.stamp == stamp);
    let new = random::row(&mut lent.dice, stamp, (1, 1));
    let mut asked = messages(held.unwrap_or(&new), table.view);
    asked.extend(held.map_or_else(Vec::new, |row| {
        contradictions(&mut lent.dice, row, table.view)
    }));
    let mut changing = table.clone();
    (changing.mode, changing.promised) = (1, table.view + 1);
    lent.hold(&changing.image());
    let any = lent.dice.index(asked.len());
    compared.count(lent.ask_for_word(&asked[any]));
    let image = table.image();
    for message in &asked {
        // Some messages change the table.
        lent.hold(&image);
        compared.count(lent.ask_for_word(message));
    }
}

/// Every row and every gap of the tables of a part.
fn walked(seed: u64, (fewest, most): (usize, usize)) -> Compared {
    let mut lent = Lent::seeded(seed);
    let mut compared = Compared::default();
    for rows in fewest..=most {
        let (first, apart) = STAMPS[rows % 2];
        let mut table = spaced::table(&mut lent.dice, rows, first, apart);
        // A view that has just begun has room for one more row where there are 510.
        table.start_rows = rows as u32;
        // Of 512 rows the first alone is found by the tenth comparison: it has an outcome, which can be contradicted.
        let found_last = table.rows.first_mut().into_iter();
        found_last.for_each(|row| row.outcome = 1);
        for stamp in spaced::rows_and_gaps(&table) {
            asked_about(&mut lent, &table, stamp, &mut compared);
        }
    }
    compared
}

/// "The stamp search shall also return the rows it compared, equal to the steps of a written definition of halving, and
/// at most 10 for 512 rows; an empty table gives 0."
#[test]
fn every_row_and_every_gap_takes_the_comparisons_of_the_second_program() {
    let compared = samples::together(&PARTS, walked, Compared::add);
    // Written past the test harness, which would keep it to itself.
    writeln!(io::stdout(), "\n{}", compared).expect("a place to print to");
    compared.assert_all_met();
}
