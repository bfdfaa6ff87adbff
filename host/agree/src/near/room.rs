//! "Keep room for the merge": new stamps about the last row that there is room for, and what asks for no room.

use super::{lonely, named, proposed, transaction};
use crate::case::{Case, SMALL};
use crate::cases::Named;
use crate::plain::Sent;
use samples::{Row, Table};

/// Rows with which a view began. They leave two tables of a merge 6, 5, 5, 3, 2, 1, 1, 0 and 0 rows each; three tables 4, 3,
/// 3, 2, 1, 1, 0, 0 and 0; four tables 3, 2, 2, 1, 1, 0, 0, 0 and 0.
const START_ROWS: [usize; 9] = [0, 1, 2, 5, 8, 9, 10, 11, 12];

pub fn all() -> Vec<Named> {
    let mut cases = Vec::new();
    for n in [3, 5, 7] {
        let about = |start_rows: &usize| last_rows(n, *start_rows);
        cases.extend(START_ROWS.iter().flat_map(about));
        cases.extend(asking_for_no_room(n));
    }
    cases.extend(while_changing());
    cases
}

/// A normal box of n in view 4 with so many rows of the stamps 1, 2 and so on, all but one of them aborted.
fn with_rows(n: u8, start_rows: usize, rows: usize) -> Table {
    let mut held: Vec<Row> = (1..=rows as u64).map(|stamp| lonely(stamp, 6, 4)).collect();
    held.iter_mut().take(1).for_each(|row| row.outcome = 3);
    Table {
        box_number: 1,
        n,
        mode: 0,
        view: 4,
        promised: 4,
        start_rows: start_rows as u32,
        rows: held,
    }
}

/// "512 less the start rows, divided by f+1 and rounded down": one row less, as many, one more, and all that there may be.
fn last_rows(n: u8, start_rows: usize) -> Vec<Named> {
    let share = (SMALL.rows - start_rows) / (1 + usize::from(n) / 2);
    let mut added = vec![share.wrapping_sub(1), share, share + 1];
    added.push(SMALL.rows - start_rows);
    added.dedup();
    let possible = |added: &usize| *added <= SMALL.rows - start_rows;
    let about = |added: usize| {
        let name = format!("of {}, {} rows added to {}", n, added, start_rows);
        let held = with_rows(n, start_rows, start_rows + added);
        proposed(&name, &held, &lonely(40, 0, 0))
    };
    added.into_iter().filter(possible).flat_map(about).collect()
}

/// The messages about a stamp that is held, those about no stamp, and those that are refused for another reason.
fn sent(n: u8) -> Vec<(&'static str, Sent)> {
    let mut image = with_rows(n, 7, 7);
    (image.view, image.promised, image.box_number) = (5, 5, 5 % n);
    let other = transaction(2, &[], &[(2, 8)]);
    vec![
        (
            "message 1 of a held stamp",
            Sent::ProposePrepare(lonely(2, 0, 0)),
        ),
        (
            "message 1 of another body",
            Sent::ProposePrepare(other.clone()),
        ),
        ("message 2", Sent::FinalisePrepare(2, 4, (2, 0))),
        (
            "message 2 of a new stamp",
            Sent::FinalisePrepare(40, 4, (1, 0)),
        ),
        (
            "message 3 of a held stamp",
            Sent::ProposeOutcome(lonely(2, 0, 0), 2),
        ),
        ("message 3 of another body", Sent::ProposeOutcome(other, 2)),
        (
            "message 3 of the opposite",
            Sent::ProposeOutcome(lonely(2, 0, 0), 1),
        ),
        ("message 4", Sent::FinaliseOutcome(2, 4, 2)),
        ("message 4 of a new stamp", Sent::FinaliseOutcome(40, 4, 1)),
        ("message 5", Sent::ChangeView(5)),
        ("message 6", Sent::StartView(5, image)),
        ("message 7", Sent::Read(40, 1)),
    ]
}

/// "A group with no room left still reads, finalises and changes view": with one row more than there is room for, as a box
/// may hold that filled its table before.
fn asking_for_no_room(n: u8) -> Vec<Named> {
    let share = (SMALL.rows - 1) / (1 + usize::from(n) / 2);
    let held = with_rows(n, 1, 1 + share + 1);
    let to = |(name, sent): (&str, Sent)| {
        let name = format!("{} without room, of {}", name, n);
        named(name, Case::answer(&held, sent))
    };
    sent(n).into_iter().map(to).collect()
}

/// 4 comes before 7.
fn while_changing() -> [Named; 2] {
    let held = Table {
        mode: 1,
        promised: 5,
        ..with_rows(3, 0, 7)
    };
    proposed("without room in mode 1", &held, &lonely(40, 0, 0))
}
