//! Number 3 by a stamp, a body, a register or a code, and number 5 by a body that differs in one thing.

use super::tables::bodies_of;
use super::{holding, lonely, named, normal, proposed, transaction};
use crate::case::Case;
use crate::cases::Named;
use crate::plain::Sent;
use samples::{Row, Table, GREATEST_STAMP};

pub fn all() -> Vec<Named> {
    let mut cases = stamps();
    cases.extend(message_bodies());
    cases.extend(results());
    cases.extend(registers());
    cases.extend(other_bodies());
    cases
}

/// A box that holds one row.
fn held() -> Table {
    normal(vec![lonely(9, 1, 1)])
}

fn asked(name: String, sent: Sent) -> Named {
    named(name, Case::answer(&held(), sent))
}

/// "A stamp is 1 to 2^48-1", in each message that has one.
fn stamps() -> Vec<Named> {
    let stamps = [0, 1, GREATEST_STAMP, GREATEST_STAMP + 1];
    let ask = |stamp: u64| {
        let named = move |(kind, sent)| asked(format!("message {} of stamp {}", kind, stamp), sent);
        of_stamp(stamp).into_iter().map(named)
    };
    stamps.into_iter().flat_map(ask).collect()
}

fn of_stamp(stamp: u64) -> [(u8, Sent); 5] {
    let row = lonely(stamp, 0, 0);
    [
        (1, Sent::ProposePrepare(row.clone())),
        (2, Sent::FinalisePrepare(stamp, 4, (1, 0))),
        (3, Sent::ProposeOutcome(row, 1)),
        (4, Sent::FinaliseOutcome(stamp, 4, 1)),
        (7, Sent::Read(stamp, 9)),
    ]
}

fn message_bodies() -> Vec<Named> {
    let ask = |(what, row): (&str, Row)| proposed(&format!("with {}", what), &held(), &row);
    bodies_of(12).into_iter().flat_map(ask).collect()
}

/// "retry stamp (by the rows' rule)"
fn results() -> Vec<Named> {
    let stamps = [0, 1, GREATEST_STAMP, GREATEST_STAMP + 1].iter();
    let case = |retry: &u64| {
        let sent = Sent::FinalisePrepare(9, 4, (4, *retry));
        asked(format!("message 2 with RETRY {}", retry), sent)
    };
    stamps.map(case).collect()
}

fn registers() -> Vec<Named> {
    let case = |register: &u8| {
        asked(
            format!("read of register {}", register),
            Sent::Read(9, *register),
        )
    };
    [0, 63, 64, 255].iter().map(case).collect()
}

/// The reads and writes of a body, and bodies that differ from the first one in one thing.
const BODIES: [(&str, &[(u8, u64)], &[(u8, u64)]); 10] = [
    ("the same body", &[(2, 3), (4, 6)], &[(5, 6), (7, 8)]),
    (
        "another register read",
        &[(2, 3), (5, 6)],
        &[(5, 6), (7, 8)],
    ),
    ("another version read", &[(2, 3), (4, 7)], &[(5, 6), (7, 8)]),
    (
        "another register written",
        &[(2, 3), (4, 6)],
        &[(5, 6), (8, 8)],
    ),
    (
        "another value written",
        &[(2, 3), (4, 6)],
        &[(5, 6), (7, 9)],
    ),
    ("a read more", &[(2, 3), (4, 6), (5, 6)], &[(5, 6), (7, 8)]),
    ("a read less", &[(2, 3)], &[(5, 6), (7, 8)]),
    ("a write more", &[(2, 3), (4, 6)], &[(5, 6), (7, 8), (9, 1)]),
    ("a write less", &[(2, 3), (4, 6)], &[(5, 6)]),
    (
        "a read that is a write",
        &[(2, 3)],
        &[(4, 6), (5, 6), (7, 8)],
    ),
];

/// "the stamp is held with another body": counts and bytes.
fn other_bodies() -> Vec<Named> {
    let (_, reads, writes) = BODIES[0];
    let held = normal(vec![holding(transaction(9, reads, writes), 0, 2)]);
    let ask = |(what, reads, writes): (&str, &[(u8, u64)], &[(u8, u64)])| {
        let name = format!("of a held stamp, {}", what);
        proposed(&name, &held, &transaction(9, reads, writes))
    };
    BODIES.into_iter().flat_map(ask).collect()
}
