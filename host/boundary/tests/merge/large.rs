//! Merges at and over 512 stamps.

use crate::lent::Lent;
use samples::runs::{self, Run};
use samples::{random, Dice, Row, MOST_ROWS, TABLE_BYTES};

/// Merges of so many stamps, up to as many as f+1 full tables of different stamps have.
pub fn stamps_about_the_limit(lent: &mut Lent) {
    for turn in 0..20 {
        for n in [3, 5, 7] {
            let most = MOST_ROWS * usize::from(n / 2 + 1);
            let any = MOST_ROWS + lent.dice.index(most - MOST_ROWS);
            for stamps in [MOST_ROWS - 1, MOST_ROWS, MOST_ROWS + 1, any, most] {
                so_many(lent, n, stamps, turn % 2 == 0);
            }
        }
    }
}

fn so_many(lent: &mut Lent, n: u8, stamps: usize, longest: bool) {
    let run = shared_out(&mut lent.dice, n, stamps, longest);
    let bytes = run.bytes();
    let expected = if stamps <= MOST_ROWS { 0 } else { 7 };
    assert_eq!(lent.ask(&bytes, run.view), expected, "{} stamps", stamps);
    if longest && stamps == MOST_ROWS {
        // The image fills the least output to its last byte.
        assert_eq!(lent.ask_with(&bytes, run.view, TABLE_BYTES), 0);
        assert_eq!(lent.image().len(), TABLE_BYTES);
    }
}

/// A run of so many stamps in all, with any bodies or with the longest.
fn shared_out(dice: &mut Dice, n: u8, stamps: usize, longest: bool) -> Run {
    let mut run = runs::quorum_of(dice, n);
    let rows = if longest {
        random::full_table(dice, stamps).rows
    } else {
        random::table(dice, stamps).rows
    };
    let shares = shares(dice, &rows, run.tables.len());
    for (index, share) in shares.into_iter().enumerate() {
        run.fill(dice, index, share);
    }
    run
}

/// Each row in a table: side by side, in turns, or as chance has it. As long as there is room, some stand in several.
fn shares(dice: &mut Dice, rows: &[Row], tables: usize) -> Vec<Vec<Row>> {
    let how = dice.index(3);
    let repeated = dice.one_of(&[0, 10, 100]);
    let mut shares: Vec<Vec<Row>> = vec![Vec::new(); tables];
    let mut spare = tables * MOST_ROWS - rows.len();
    for (index, row) in rows.iter().enumerate() {
        let first = [
            index * tables / rows.len(),
            index % tables,
            dice.index(tables),
        ][how];
        let mut places = (0..tables).map(|more| (first + more) % tables);
        let own = places.find(|place| shares[*place].len() < MOST_ROWS);
        for (place, share) in shares.iter_mut().enumerate() {
            let room = spare > 0 && share.len() < MOST_ROWS;
            if Some(place) == own {
                share.push(row.clone());
            } else if room && dice.in_a_hundred(repeated) {
                share.push(row.clone());
                spare -= 1;
            }
        }
    }
    shares
}

/// Full tables with the same stamps, all of which are to be checked.
pub fn all_checked(lent: &mut Lent) {
    for n in [3, 5, 7] {
        let dice = &mut lent.dice;
        let mut run = runs::quorum_of(dice, n);
        let mut rows = random::table(dice, MOST_ROWS).rows;
        for row in &mut rows {
            (row.prepare, row.retry, row.outcome) = (1, 0, 0);
        }
        for index in 0..run.tables.len() {
            let mut own = rows.clone();
            // Some agreed, some open, and none decided.
            own.iter_mut()
                .for_each(|row| row.prepare = dice.one_of(&[1, 1, 2]));
            run.fill(dice, index, own);
        }
        assert_eq!(lent.ask(&run.bytes(), run.view), 0);
    }
}

/// Stamps of tables that are not used do not count: 512 stand in one table, and many others behind it or before it.
pub fn older_views(lent: &mut Lent) {
    for turn in 0..20 {
        let dice = &mut lent.dice;
        let mut run = runs::quorum(dice);
        let newest = dice.index(run.tables.len());
        for index in 0..run.tables.len() {
            run.tables[index].view -= u32::from(index != newest);
            let rows = random::table(dice, MOST_ROWS - turn % 2).rows;
            run.fill(dice, index, rows);
        }
        assert_eq!(lent.ask(&run.bytes(), run.view), 0);
    }
}
