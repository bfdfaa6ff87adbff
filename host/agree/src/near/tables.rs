//! "The table image", "bad n or box" and "small buffer".

use super::{accesses, holding, lonely, named, normal, transaction};
use crate::case::{Case, SMALL};
use crate::cases::Named;
use samples::{Row, Table, GREATEST_STAMP};

pub fn all() -> Vec<Named> {
    let mut cases = headers();
    cases.extend(rows());
    cases.extend(bodies());
    cases.extend(fresh());
    cases
}

fn image(name: &str, table: Table) -> Named {
    named(format!("table: {}", name), Case::image(table))
}

fn two_rows() -> Table {
    normal(vec![lonely(1, 1, 0), lonely(9, 5, 3)])
}

/// Mode, view and promised view: "Normal: promised = view. Changing: promised > view."
const MODES: [(u8, u32, u32); 10] = [
    (0, 4, 3),
    (0, 4, 4),
    (0, 4, 5),
    (1, 4, 3),
    (1, 4, 4),
    (1, 4, 5),
    (2, 4, 4),
    (2, 4, 5),
    (0, u32::MAX, u32::MAX),
    (1, u32::MAX - 1, u32::MAX),
];

/// n and the number of a box.
const BOXES: [(u8, u8); 11] = [
    (3, 0),
    (3, 2),
    (3, 3),
    (5, 4),
    (5, 5),
    (7, 6),
    (7, 7),
    (1, 0),
    (2, 0),
    (4, 1),
    (8, 0),
];

/// The header, and "Start rows never exceed rows."
fn headers() -> Vec<Named> {
    let of_mode = |(mode, view, promised)| {
        let name = format!("mode {}, view {}, promised {}", mode, view, promised);
        let mut table = two_rows();
        (table.mode, table.view, table.promised) = (mode, view, promised);
        image(&name, table)
    };
    let of_box = |(n, box_number)| {
        let mut table = two_rows();
        (table.n, table.box_number) = (n, box_number);
        image(&format!("box {} of {}", box_number, n), table)
    };
    let of_start = |start_rows| {
        let mut table = two_rows();
        table.start_rows = start_rows;
        image(&format!("{} start rows of 2", start_rows), table)
    };
    let mut cases: Vec<Named> = MODES.into_iter().map(of_mode).collect();
    cases.extend(BOXES.into_iter().map(of_box));
    cases.extend([0, 2, 3].into_iter().map(of_start));
    cases
}

/// "stamps strictly rising", "At most 512 rows", "Not both zero" and the retry stamp.
fn rows() -> Vec<Named> {
    let of = |stamps: &[u64]| normal(stamps.iter().map(|stamp| lonely(*stamp, 1, 0)).collect());
    let most = SMALL.rows as u64;
    let up_to = |last| (1..=last).collect::<Vec<u64>>();
    let with = |row: Row| normal(vec![lonely(1, 1, 0), row, lonely(12, 0, 2)]);
    let retry = |prepare, retry| {
        with(Row {
            retry,
            ..lonely(9, prepare, 0)
        })
    };
    vec![
        image("as many rows as there may be", of(&up_to(most))),
        image("one row too many", of(&up_to(most + 1))),
        image("stamp 0", of(&[0, 2])),
        image("the greatest stamp", of(&[2, GREATEST_STAMP])),
        image("a stamp beyond the greatest", of(&[2, GREATEST_STAMP + 1])),
        image("a stamp twice", of(&[2, 3, 3])),
        image("falling stamps", of(&[2, 4, 3])),
        image("a row that holds nothing", with(lonely(9, 0, 0))),
        image("a row with a prepare alone", with(lonely(9, 1, 0))),
        image("a row with an outcome alone", with(lonely(9, 0, 1))),
        image("tentative RETRY 1", retry(4, 1)),
        image("tentative RETRY 0", retry(4, 0)),
        image(
            "tentative RETRY beyond all stamps",
            retry(4, GREATEST_STAMP + 1),
        ),
        image("final RETRY 1", retry(8, 1)),
        image("final RETRY 0", retry(8, 0)),
        image(
            "final RETRY beyond all stamps",
            retry(8, GREATEST_STAMP + 1),
        ),
    ]
}

/// The rules of "Stamps and bodies", in the body of a row.
fn bodies() -> Vec<Named> {
    let with = |(name, row): (&'static str, Row)| {
        image(name, normal(vec![lonely(1, 1, 0), holding(row, 1, 0)]))
    };
    bodies_of(9).into_iter().map(with).collect()
}

/// Bodies of a stamp above 1, each with what it is: by the rules, or with one of them broken.
pub fn bodies_of(stamp: u64) -> Vec<(&'static str, Row)> {
    let of = |reads: &[(u8, u64)], writes: &[(u8, u64)]| transaction(stamp, reads, writes);
    let four = [(0, 0), (1, 1), (2, stamp - 1), (63, 0)];
    let five = accesses(&[(0, 0), (1, 0), (2, 0), (3, 0), (4, 0)]);
    let with_five = |reads, writes| Row {
        reads,
        writes,
        ..of(&[], &[])
    };
    vec![
        ("four reads and four writes", of(&four, &four)),
        ("five reads", with_five(five.clone(), Vec::new())),
        ("five writes", with_five(Vec::new(), five)),
        ("no access", of(&[], &[])),
        ("a version at the stamp", of(&[(5, stamp)], &[])),
        ("a value above the stamp", of(&[], &[(5, u64::MAX)])),
        ("a read of register 64", of(&[(64, 0)], &[])),
        ("a write of register 64", of(&[], &[(64, 0)])),
        ("a register read twice", of(&[(5, 0), (5, 1)], &[])),
        ("a register written twice", of(&[], &[(5, 0), (5, 1)])),
        ("read registers that fall", of(&[(5, 0), (4, 0)], &[])),
        ("written registers that fall", of(&[], &[(5, 0), (4, 0)])),
        ("a register read and written", of(&[(5, 0)], &[(5, 0)])),
    ]
}

fn fresh() -> Vec<Named> {
    let of_box = |(n, box_number)| {
        let name = format!("fresh box {} of {}", box_number, n);
        named(name, Case::fresh(n, box_number))
    };
    let mut cases: Vec<Named> = BOXES.into_iter().map(of_box).collect();
    cases.push(named("the smallest buffers", Case::buffers(49_176, 24)));
    cases.push(named(
        "buffers one byte too small",
        Case::buffers(49_175, 23),
    ));
    cases
}
