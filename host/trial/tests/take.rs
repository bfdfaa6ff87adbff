//! Another image in the place of the table's own, taken by the library as by the second program.

mod common;

use common::{lengths, read, tables, Change, Lent};
use samples::{random, Dice, Table, Tally, MOST_ROWS};
use std::cmp::Ordering;

/// Whether the image taken is longer or shorter than the one before it, and whether it was lent alone.
fn kind(own: &Table, taken: &Table, bytes_after: usize) -> String {
    let size = match taken.length().cmp(&own.length()) {
        Ordering::Less => "shorter",
        Ordering::Equal => "as long",
        Ordering::Greater => "longer",
    };
    let lent = if bytes_after == 0 {
        "alone"
    } else {
        "followed"
    };
    format!("{}, {}", size, lent)
}

/// Has a table take an image, lent alone and with bytes after it, in a buffer of each length.
fn taken(dice: &mut Dice, own: &Table, taken: &Table, tally: &mut Tally) {
    let before = read(own);
    for length in lengths(own.length().max(taken.length())) {
        let lent = Lent::holding(dice, before.clone(), length);
        for bytes_after in [0, 1, 1 + dice.index(300)] {
            let image = [taken.image(), dice.bytes(bytes_after)].concat();
            let after = lent.after(&Change::Image { lent: image });
            tally.count(&kind(own, taken, bytes_after), after.is_image());
        }
    }
}

#[test]
fn an_image_is_taken_as_by_the_second_program() {
    let mut dice = Dice::seeded(1);
    let mut tally = Tally::default();
    let mut groups = Tally::default();
    let sizes = [0, 1, 2, 7, 100, MOST_ROWS - 1, MOST_ROWS];
    for (own, other) in sizes
        .iter()
        .flat_map(|own| sizes.map(|other| (*own, other)))
    {
        // Both come in a random order.
        let others = tables(&mut dice, other);
        for (own, other) in tables(&mut dice, own).iter().zip(&others) {
            taken(&mut dice, own, other, &mut tally);
            groups.count(&format!("n {} takes from n {}", own.n, other.n), true);
        }
    }
    for rows in sizes {
        let own = random::full_table(&mut dice, rows);
        let as_long = random::full_table(&mut dice, rows);
        taken(&mut dice, &own, &as_long, &mut tally);
    }
    tally.assert_met(3 * 2, 20);
    groups.assert_met(9, 20);
    // A box number that the other n does not have breaks a rule, and the bytes are fixed all the same.
    tally.assert_both_verdicts_met(1, &[]);
}
