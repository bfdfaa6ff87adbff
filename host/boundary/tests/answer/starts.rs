//! Message 6: images that keep 01's further conditions and images that break some of them, to tables of other lengths.

use crate::lent::Lent;
use samples::damage;
use samples::message as make;
use samples::{random, Dice, Table, MOST_ROWS};

/// A way to break a condition. It says whether it did: some are not to be broken without rows.
type Breaks = fn(&mut Dice, &mut Table) -> bool;

/// "The image must be normal, view v, box v mod n, the same n, start rows equal to rows, prepare bytes 0 or 5 to 8, outcomes
/// 0, 3 or 4": a way to break each.
const BROKEN: [Breaks; 7] = [
    changing,
    other_view,
    other_box,
    other_n,
    fewer_start_rows,
    tentative,
    noted,
];

fn changing(_: &mut Dice, image: &mut Table) -> bool {
    image.mode = 1;
    image.promised = image.view.saturating_add(1);
    true
}

fn other_view(dice: &mut Dice, image: &mut Table) -> bool {
    // A whole number of groups further or back, so that the box is still v mod n.
    let n = u32::from(image.n);
    let view = dice.one_of(&[image.view.wrapping_add(n), image.view.wrapping_sub(n)]);
    image.view = view;
    image.promised = view;
    true
}

fn other_box(dice: &mut Dice, image: &mut Table) -> bool {
    let further = 1 + dice.below(u64::from(image.n) - 1) as u8;
    image.box_number = (image.box_number + further) % image.n;
    true
}

fn other_n(dice: &mut Dice, image: &mut Table) -> bool {
    let others = [3, 5, 7].into_iter().filter(|n| *n != image.n);
    let others: Vec<u8> = others.collect();
    image.n = dice.one_of(&others);
    // The box is that of the view in the other group, or in the own one where the other has it.
    let in_other = (image.view % u32::from(image.n)) as u8;
    if image.box_number >= image.n || dice.in_a_hundred(50) {
        image.box_number = in_other;
    }
    true
}

fn fewer_start_rows(dice: &mut Dice, image: &mut Table) -> bool {
    let rows = image.rows.len();
    if rows > 0 {
        let any = dice.index(rows);
        image.start_rows = dice.one_of(&[0, any, rows - 1]) as u32;
    }
    rows > 0
}

fn tentative(dice: &mut Dice, image: &mut Table) -> bool {
    let rows = image.rows.len();
    if rows > 0 {
        let row = &mut image.rows[dice.one_of(&[0, rows / 2, rows - 1])];
        row.prepare = 1 + dice.below(4) as u8;
        row.retry = u64::from(row.prepare == 4) * row.stamp;
    }
    rows > 0
}

fn noted(dice: &mut Dice, image: &mut Table) -> bool {
    let rows = image.rows.len();
    if rows > 0 {
        let row = &mut image.rows[dice.one_of(&[0, rows / 2, rows - 1])];
        row.outcome = dice.one_of(&[1, 2]);
    }
    rows > 0
}

/// A random table made the first in a view.
fn beginning(mut image: Table, n: u8, view: u32) -> Table {
    image.n = n;
    image.box_number = (view % u32::from(n)) as u8;
    image.mode = 0;
    image.view = view;
    image.promised = view;
    image.start_rows = image.rows.len() as u32;
    for row in &mut image.rows {
        row.prepare += if (1..=4).contains(&row.prepare) { 4 } else { 0 };
        row.outcome += if (1..=2).contains(&row.outcome) { 2 } else { 0 };
    }
    image
}

/// A view about those of the table.
fn view_for(dice: &mut Dice, table: &Table) -> u32 {
    let (view, promised) = (table.view, table.promised);
    let about = [
        view.wrapping_sub(1),
        view,
        view.wrapping_add(1),
        promised.wrapping_sub(1),
        promised,
        promised.wrapping_add(1),
        promised.saturating_add(2),
        u32::MAX,
    ];
    dice.one_of(&about)
}

/// Has an image of so many rows that breaks these conditions taken, or refused, by a table of so many.
fn started(lent: &mut Lent, (own, taken): (usize, usize), broken: &[Breaks]) {
    let tables = [
        random::table(&mut lent.dice, own),
        random::table(&mut lent.dice, taken),
    ];
    started_with(lent, tables, broken);
}

/// Has the second table taken, or refused, by the first.
fn started_with(lent: &mut Lent, [table, image]: [Table; 2], broken: &[Breaks]) {
    let dice = &mut lent.dice;
    let view = view_for(dice, &table);
    let mut image = beginning(image, table.n, view);
    let mut any = false;
    for breaks in broken {
        any |= breaks(dice, &mut image);
    }
    lent.hold(&table.image());
    let number = lent.ask(&make::start_view(view, &image.image()));
    let old = view < table.promised || view <= table.view;
    let expected = match (any, old) {
        (true, _) => 3,
        (false, true) => 10,
        (false, false) => 0,
    };
    assert_eq!(
        number, expected,
        "{:?} starts {} with {:?}",
        table, view, image
    );
}

/// Images that break nothing, one condition, or two, with and without rows, over tables with more and with fewer.
pub fn conditions(lent: &mut Lent) {
    for turn in 0..600 {
        let sizes = (turn % 7, (turn / 7) % 7);
        (0..40).for_each(|_| started(lent, sizes, &[]));
        for first in BROKEN {
            (0..4).for_each(|_| started(lent, sizes, &[first]));
        }
        // Two different ones: the same thing twice may mend it.
        let first = lent.dice.index(7);
        let second = (first + 1 + lent.dice.index(6)) % 7;
        started(lent, sizes, &[BROKEN[first], BROKEN[second]]);
    }
}

/// Large tables taken, and given up; some fill their buffers to the last byte.
pub fn large(lent: &mut Lent) {
    let sizes = [0, 1, MOST_ROWS - 1, MOST_ROWS];
    for (own, taken) in sizes
        .iter()
        .flat_map(|own| sizes.map(|taken| (*own, taken)))
    {
        (0..8).for_each(|_| started(lent, (own, taken), &[]));
        BROKEN
            .iter()
            .for_each(|one| started(lent, (own, taken), &[*one]));
        for _ in 0..8 {
            let full = |rows| random::full_table(&mut lent.dice, rows);
            let tables = [own, taken].map(full);
            started_with(lent, tables, &[]);
        }
    }
    (0..10).for_each(|_| too_many_rows(lent));
}

/// Images of many and of too many rows, as views begin with them.
fn too_many_rows(lent: &mut Lent) {
    let own = random::table(&mut lent.dice, 3);
    let (held, view) = (own.image(), own.promised.saturating_add(1));
    let mut dice = Dice::seeded(lent.dice.below(1_000));
    damage::rows_about_the_limit(&mut dice, &mut |_, image| {
        let mut image = image.to_vec();
        image[2] = own.n;
        lent.hold(&held);
        lent.ask(&make::start_view(view, &make::settled(&image, view)));
    });
}

/// Images of every kind, good and damaged, with which a view is started; each in a message of the view that it had.
pub fn damaged(lent: &mut Lent) {
    for turn in 0..8 {
        let own = random::table(&mut lent.dice, turn % 5);
        let view = own.promised.saturating_add(1);
        let image = random::table(&mut lent.dice, 3 + turn % 4);
        let image = beginning(image, own.n, view);
        let held = own.image();
        let mut dice = Dice::seeded(turn as u64);
        let mut ask = |_: &str, bytes: &[u8]| {
            lent.hold(&held);
            lent.ask(&make::start_view(view, bytes));
        };
        damage::fields_overwritten(&image, &[], &mut ask);
        damage::some_fields_overwritten(&mut dice, &image, 300, &mut ask);
        damage::cut_and_followed(&mut dice, &image, &mut ask);
        for index in 0..3 {
            damage::gaps(&image, index, &mut ask);
            damage::reads_taken_for_writes(&image, index, &mut ask);
        }
        damage::shared_bodies(&image, 1, &mut ask);
        damage::bodies_out_of_order(&image, 0, &mut ask);
        damage::every_mode(&image, &mut ask);
    }
}
