//! A table's mode and views, changed by the library as by the second program.

mod common;

use common::{lent_tables, read, tables, Change, Lent};
use samples::{Dice, Tally, TABLE_BYTES};

/// The least, the greatest, those about the view held, and any.
fn views(dice: &mut Dice, held: u32) -> Vec<u32> {
    let any = dice.below(1 << 32) as u32;
    let about = [held.saturating_sub(1), held, held.saturating_add(1)];
    [&[0, 1, any, u32::MAX][..], &about].concat()
}

#[test]
fn a_promise_is_kept_as_by_the_second_program() {
    let mut dice = Dice::seeded(1);
    let mut tally = Tally::default();
    for lent in lent_tables(&mut dice) {
        for view in views(&mut dice, lent.table.view) {
            let after = lent.after(&Change::Promise { view });
            // A promised view that is not later breaks a rule, and the bytes are fixed all the same.
            assert_eq!(after.is_image(), view > lent.table.view);
            tally.count(&format!("{} rows", lent.table.rows.len()), after.is_image());
        }
    }
    tally.assert_met(common::SIZES.len(), 100);
    tally.assert_both_verdicts_met(20, &[]);
}

#[test]
fn mode_and_views_are_set_as_by_the_second_program() {
    let mut dice = Dice::seeded(2);
    let mut tally = Tally::default();
    for lent in lent_tables(&mut dice) {
        for view in views(&mut dice, lent.table.view) {
            let normal = (0, view);
            let changing = views(&mut dice, view).into_iter().map(|later| (1, later));
            for (mode, promised) in changing.chain([normal]) {
                let after = lent.after(&Change::Views {
                    mode,
                    view,
                    promised,
                });
                assert_eq!(after.is_image(), mode == 0 || promised > view);
                tally.count(&format!("mode {}", mode), after.is_image());
            }
        }
    }
    tally.assert_met(2, 1_000);
    assert!(tally.met("mode 1").others > 1_000);
}

/// The second program has no word for these, so their mode is put into its image by hand.
#[test]
fn a_mode_that_fits_no_view_or_no_rule_is_set_all_the_same() {
    let mut dice = Dice::seeded(3);
    let some = [0, 1, 7].map(|rows| tables(&mut dice, rows));
    for table in some.iter().flatten() {
        let lent = Lent::holding(&mut dice, read(table), TABLE_BYTES);
        for mode in 0..=255 {
            let view = dice.below(1 << 32) as u32;
            let promised = dice.below(1 << 32) as u32;
            let change = |mode| Change::Views {
                mode,
                view,
                promised,
            };
            let mut image = change(1).by_second_program(&lent.table).image();
            image[3] = mode;
            lent.after_with(&change(mode), &image);
        }
    }
}
