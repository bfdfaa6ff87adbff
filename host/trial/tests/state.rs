//! A row's prepare byte with its retry stamp, and its outcome byte, stored by the library as by the second program.

mod common;

use common::{lent_tables, some_rows, Change};
use samples::{Dice, Tally, GREATEST_STAMP};

/// "The retry stamp is a stamp for RETRY and 0 otherwise."
fn retry_stamps(dice: &mut Dice, prepare: u8) -> Vec<u64> {
    match prepare {
        4 | 8 => vec![1, 1 + dice.below(GREATEST_STAMP), GREATEST_STAMP],
        _ => vec![0],
    }
}

#[test]
fn each_prepare_byte_is_stored_as_by_the_second_program() {
    let mut dice = Dice::seeded(1);
    let mut tally = Tally::default();
    for lent in lent_tables(&mut dice) {
        for (which, index) in some_rows(&mut dice, lent.table.rows.len()) {
            for byte in 0..=8 {
                for retry_stamp in retry_stamps(&mut dice, byte) {
                    let change = Change::Prepare {
                        index,
                        byte,
                        retry_stamp,
                    };
                    let kind = format!("prepare {} in the {} row", byte, which);
                    tally.count(&kind, lent.after(&change).is_image());
                }
            }
        }
    }
    tally.assert_met(9 * 3, 100);
    // Of a row without an outcome nothing is left then: that breaks a rule, and the bytes are fixed all the same.
    assert!(tally.met("prepare 0 in the first row").others > 10);
    assert_eq!(tally.met("prepare 1 in the first row").others, 0);
}

#[test]
fn each_outcome_byte_is_stored_as_by_the_second_program() {
    let mut dice = Dice::seeded(2);
    let mut tally = Tally::default();
    for lent in lent_tables(&mut dice) {
        for (which, index) in some_rows(&mut dice, lent.table.rows.len()) {
            for byte in 0..=4 {
                let after = lent.after(&Change::Outcome { index, byte });
                let kind = format!("outcome {} in the {} row", byte, which);
                tally.count(&kind, after.is_image());
            }
        }
    }
    tally.assert_met(5 * 3, 100);
    assert!(tally.met("outcome 0 in the first row").others > 5);
    assert_eq!(tally.met("outcome 1 in the first row").others, 0);
}
