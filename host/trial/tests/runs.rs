//! Many changes one after the other in one buffer, each by the library as by the second program.

mod common;

use common::{Change, Lent};
use reference::Table;
use samples::{random, Dice, Tally, GREATEST_STAMP, MOST_ROWS, TABLE_BYTES};

/// A row that the table does not hold.
fn new_row(dice: &mut Dice, table: &Table) -> Change {
    let mut stamp = 1 + dice.below(GREATEST_STAMP);
    while table.rows.contains_key(&stamp) {
        stamp = 1 + dice.below(GREATEST_STAMP);
    }
    let pair = 1 + dice.index(24);
    let row = random::row(dice, stamp, (pair / 5, pair % 5));
    Change::adding(dice, table, &row)
}

fn new_prepare(dice: &mut Dice, table: &Table) -> Change {
    let byte = dice.index(9) as u8;
    let stamp = 1 + dice.below(GREATEST_STAMP);
    Change::Prepare {
        index: dice.index(table.rows.len()),
        byte,
        retry_stamp: if byte == 4 || byte == 8 { stamp } else { 0 },
    }
}

fn new_image(dice: &mut Dice) -> Change {
    let rows = dice.index(MOST_ROWS / 2);
    Change::Image {
        lent: random::table(dice, rows).image(),
    }
}

/// Any change, by its name: mostly a row more while there is room, seldom another image.
fn any_change(dice: &mut Dice, table: &Table) -> (&'static str, Change) {
    let rows = table.rows.len();
    let any_view = dice.below(1 << 32) as u32;
    match dice.index(100) {
        0 => ("image", new_image(dice)),
        1..=10 => ("promise", Change::Promise { view: any_view }),
        11..=20 => (
            "views",
            Change::Views {
                mode: 0,
                view: any_view,
                promised: any_view,
            },
        ),
        21..=35 if rows > 0 => ("prepare", new_prepare(dice, table)),
        36..=50 if rows > 0 => (
            "outcome",
            Change::Outcome {
                index: dice.index(rows),
                byte: dice.index(5) as u8,
            },
        ),
        _ if rows < MOST_ROWS => ("row", new_row(dice, table)),
        _ => ("image", new_image(dice)),
    }
}

#[test]
fn changes_follow_each_other_as_by_the_second_program() {
    let mut dice = Dice::seeded(1);
    let mut tally = Tally::default();
    let mut most_rows = 0;
    for (n, box_number) in [(3, 0), (5, 4), (7, 2)] {
        let fresh = Table::fresh(n, box_number).expect("a box of the group");
        let mut lent = Lent::holding(&mut dice, fresh, TABLE_BYTES);
        for _ in 0..2_000 {
            let (kind, change) = any_change(&mut dice, &lent.table);
            lent = lent.after(&change);
            most_rows = most_rows.max(lent.table.rows.len());
            tally.count(kind, lent.is_image());
        }
    }
    tally.assert_met(6, 30);
    assert!(most_rows > 200, "{}", most_rows);
}
