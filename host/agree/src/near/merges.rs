//! When a merge is refused: 11, and 5, 6 and 7 of the tables that are used.

use super::{holding, lonely, named, transaction};
use crate::case::{Case, SMALL};
use crate::cases::Named;
use samples::{Row, Table};

/// The view that the tables are merged for, and the one that they were in.
pub const NEXT: u32 = 7;
const BEFORE: u32 = 4;

pub fn all() -> Vec<Named> {
    let mut cases = lengths();
    cases.extend(wrong_tables());
    cases.extend(other_bodies());
    cases.extend(contradictions());
    cases.extend(full());
    cases.extend(in_this_order());
    cases
}

/// The tables of the first boxes of a group of n, all of which promised the next view.
pub fn gathered(n: u8, rows: Vec<Vec<Row>>) -> Vec<Table> {
    let table = |(place, rows): (usize, Vec<Row>)| Table {
        box_number: place as u8,
        n,
        mode: 1,
        view: BEFORE,
        promised: NEXT,
        start_rows: 0,
        rows,
    };
    rows.into_iter().enumerate().map(table).collect()
}

pub fn merged(name: &str, tables: Vec<Table>) -> Named {
    named(format!("merge: {}", name), Case::merge(NEXT, tables))
}

/// The same with one table of an older view, which is not used.
pub fn older(place: usize, mut tables: Vec<Table>) -> Vec<Table> {
    tables[place].view = BEFORE - 1;
    tables
}

/// "not exactly f+1 images"
fn lengths() -> Vec<Named> {
    let of = |(n, count)| {
        let tables = gathered(n, vec![vec![lonely(9, 5, 0)]; count]);
        merged(&format!("{} tables of {}", count, n), tables)
    };
    let counts = [
        (3, 1),
        (3, 2),
        (3, 3),
        (5, 2),
        (5, 3),
        (5, 4),
        (7, 3),
        (7, 4),
        (7, 5),
    ];
    counts.into_iter().map(of).collect()
}

/// "unequal n, a box twice, mode 0, or promised not v"
fn wrong_tables() -> Vec<Named> {
    let places = [(3, 2, 0), (3, 2, 1), (5, 3, 2)];
    let mut cases: Vec<Named> = places.into_iter().flat_map(wrong_table).collect();
    let mut twice = gathered(5, vec![Vec::new(); 3]);
    twice[2].box_number = 0;
    cases.push(merged("the first box once more", twice));
    cases
}

/// So many tables of n boxes, of which one is wrong in one thing.
fn wrong_table((n, count, place): (u8, usize, usize)) -> [Named; 5] {
    let with = |what: &str, change: fn(&mut Table)| {
        let mut tables = gathered(n, vec![vec![lonely(9, 5, 0)]; count]);
        change(&mut tables[place]);
        merged(&format!("{}, table {} of {}", what, place, count), tables)
    };
    [
        with("another n", |table| table.n = 7),
        with("mode 0", |table| (table.mode, table.view) = (0, NEXT)),
        with("promised the view before", |table| table.promised -= 1),
        with("promised the view behind", |table| table.promised += 1),
        with("a box twice", |table| {
            table.box_number = 1 - table.box_number.min(1)
        }),
    ]
}

/// Two tables of three, or three of five, that hold these rows of one stamp.
fn of_one_stamp(name: &str, rows: &[Row]) -> Vec<Named> {
    let n = 2 * rows.len() as u8 - 1;
    let alone: Vec<Vec<Row>> = rows.iter().map(|row| vec![row.clone()]).collect();
    let unused = older(rows.len() - 1, gathered(n, alone.clone()));
    vec![
        merged(name, gathered(n, alone)),
        merged(&format!("{}, the last of an older view", name), unused),
    ]
}

/// "5 for one stamp with two bodies"
fn other_bodies() -> Vec<Named> {
    let of =
        |reads: &[(u8, u64)], writes: &[(u8, u64)]| holding(transaction(9, reads, writes), 5, 0);
    let usual = of(&[(4, 1)], &[(5, 1)]);
    let mut cases = Vec::new();
    for (name, other) in [
        ("another read", of(&[(4, 2)], &[(5, 1)])),
        ("another write", of(&[(4, 1)], &[(5, 2)])),
    ] {
        cases.extend(of_one_stamp(name, &[usual.clone(), other.clone()]));
        cases.extend(of_one_stamp(name, &[usual.clone(), usual.clone(), other]));
    }
    cases
}

/// "6 for two unequal finals or opposite outcomes"
fn contradictions() -> Vec<Named> {
    let prepares = [
        (5, 5),
        (5, 6),
        (6, 5),
        (7, 8),
        (5, 2),
        (2, 5),
        (1, 2),
        (8, 8),
        (0, 6),
        (6, 0),
    ];
    let finals = |(one, other)| {
        let rows = [lonely(9, one, 3), lonely(9, other, 3)];
        of_one_stamp(&format!("prepares {} and {}", one, other), &rows)
    };
    let outcomes = (1..=4).flat_map(|one| (one..=4).map(move |other| (one, other)));
    let opposite = |(one, other)| {
        let rows = [lonely(9, 5, one), lonely(9, 5, other)];
        of_one_stamp(&format!("outcomes {} and {}", one, other), &rows)
    };
    let mut cases: Vec<Named> = prepares.into_iter().flat_map(finals).collect();
    cases.extend(outcomes.flat_map(opposite));
    let mut retries = [lonely(9, 8, 0), lonely(9, 8, 0)];
    retries[1].retry += 1;
    cases.extend(of_one_stamp("final RETRY with two stamps", &retries));
    let apart = [lonely(9, 5, 0), lonely(9, 0, 1), lonely(9, 0, 4)];
    cases.extend(of_one_stamp("opposite outcomes behind the first", &apart));
    let apart = [lonely(9, 1, 0), lonely(9, 7, 0), lonely(9, 5, 0)];
    cases.extend(of_one_stamp("unequal finals behind the first", &apart));
    cases
}

fn rows(stamps: std::ops::RangeInclusive<u64>) -> Vec<Row> {
    stamps.map(|stamp| lonely(stamp, 5, 0)).collect()
}

/// "a merge of more than 512 stamps"
fn full() -> Vec<Named> {
    let most = SMALL.rows as u64;
    vec![
        merged(
            "as many stamps as there may be",
            gathered(3, vec![rows(1..=8), rows(5..=most)]),
        ),
        merged(
            "one stamp too many",
            gathered(3, vec![rows(1..=8), rows(5..=most + 1)]),
        ),
        merged(
            "too many stamps, some of an older view",
            older(0, gathered(3, vec![rows(1..=8), rows(5..=most + 1)])),
        ),
    ]
}

/// 11, 5, 6, 7: whichever stamp they are given for.
fn in_this_order() -> Vec<Named> {
    let body = |stamp| holding(transaction(stamp, &[], &[(60, stamp)]), 5, 0);
    let with = |first: Vec<Row>, mut second: Vec<Row>| {
        second.extend(rows(20..=25));
        gathered(3, vec![[first, rows(12..=17)].concat(), second])
    };
    let six = (vec![lonely(2, 5, 0)], vec![lonely(2, 6, 0)]);
    let five = (vec![lonely(3, 5, 0)], vec![body(3)]);
    let both = (
        [six.0.clone(), five.0.clone()].concat(),
        [six.1.clone(), five.1.clone()].concat(),
    );
    let mut wrong = with(both.0.clone(), both.1.clone());
    wrong[1].promised += 1;
    vec![
        merged("5 at a later stamp than 6, and 7", with(both.0, both.1)),
        merged("6 and 7", with(six.0, six.1)),
        merged("5 and 7", with(five.0, five.1)),
        merged("11 and all others", wrong),
    ]
}
