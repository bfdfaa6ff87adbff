//! "The check": each inequality at equality and one off it, who counts, the stamp of RETRY as document 02 mends it, and
//! the order of A to D. It is the merge's. What it is asked, the one for messages 1 is asked too.

use super::{holding, named, transaction};
use crate::case::{Case, WhoChecks};
use crate::cases::Named;
use samples::Row;

/// The register that is read and written; others stand beside it.
pub const K: u8 = 5;

pub fn all() -> Vec<Named> {
    let mut asked = rule_a();
    asked.extend(rule_b());
    asked.extend(who_counts());
    asked.extend(registers());
    asked.extend(second_readers());
    asked.extend(other_readers());
    asked.extend(readers_in_line());
    asked.extend(in_this_order());
    asked.into_iter().flat_map(by_both).collect()
}

/// What a check is asked: a name, the rows, and the transaction.
pub type Asked = (String, Vec<Row>, Row);

/// What both checks say to it.
pub fn by_both((name, rows, asked): Asked) -> [Named; 2] {
    let case = |who| Case::check(who, rows.clone(), asked.clone());
    [
        named(format!("check: {}", name), case(WhoChecks::TheMerge)),
        named(
            format!("check of message 1: {}", name),
            case(WhoChecks::ABox),
        ),
    ]
}

/// A transaction that reads K at a version, and other registers on both sides of it.
pub fn reader(stamp: u64, version: u64) -> Row {
    transaction(stamp, &[(1, 0), (K, version), (9, 0)], &[(2, 3)])
}

/// A transaction that writes K, and other registers on both sides of it.
pub fn writer(stamp: u64) -> Row {
    transaction(stamp, &[(3, 0)], &[(4, 1), (K, 1), (8, 1)])
}

pub fn committed(row: Row) -> Row {
    holding(row, 5, 3)
}

pub fn prepared(row: Row) -> Row {
    holding(row, 1, 0)
}

/// Three numbers of which the second lies between the others, at one of them or beyond it, by one where it can.
const TRIPLES: [(u64, u64, u64); 7] = [
    (9, 10, 20),
    (10, 10, 20),
    (11, 10, 20),
    (0, 19, 20),
    (0, 20, 20),
    (0, 21, 20),
    (0, 1, 20),
];

/// The check beside one row that is committed, prepared, or neither.
pub fn beside(name: &str, row: Row, asked: Row) -> [Asked; 3] {
    let with = |state: &str, row| (format!("{}, {}", name, state), vec![row], asked.clone());
    [
        with("committed", committed(row.clone())),
        with("prepared", prepared(row.clone())),
        with("aborted", holding(row, 5, 4)),
    ]
}

/// "v < w < s": ABORT beside a committed write and ABSTAIN beside a prepared one.
fn rule_a() -> Vec<Asked> {
    let of = |(v, w, s)| {
        let name = format!("read at {} by {}, written at {}", v, s, w);
        beside(&name, writer(w), reader(s, v))
    };
    TRIPLES.into_iter().flat_map(of).collect()
}

/// "v' < s < s'": RETRY beside a committed read and ABSTAIN beside a prepared one.
fn rule_b() -> Vec<Asked> {
    let of = |(v, s, later)| {
        let name = format!("written at {}, read at {} by {}", s, v, later);
        beside(&name, reader(later, v), writer(s))
    };
    TRIPLES.into_iter().flat_map(of).collect()
}

/// "Committed: outcome 3. Prepared: prepare byte 1 or 5 and outcome 0, 1 or 2." Of every state that a row can have.
fn who_counts() -> Vec<Asked> {
    let mut cases = Vec::new();
    for (prepare, outcome) in (1..45).map(|state| (state / 5, state % 5)) {
        let name = format!("beside prepare {} and outcome {}", prepare, outcome);
        let row = holding(writer(10), prepare, outcome);
        cases.push((name, vec![row], reader(20, 0)));
    }
    cases
}

/// The register that is read is the one that is written. Whoever reads what was read is refused by neither check, and
/// whoever writes what was written by the one for messages 1 alone, if that came later.
fn registers() -> Vec<Asked> {
    let (early, late) = (committed(writer(10)), committed(reader(30, 0)));
    let later_write = committed(writer(30));
    let of = |(name, row, reads, writes): (&str, &Row, &[(u8, u64)], &[(u8, u64)])| {
        (
            name.into(),
            vec![row.clone()],
            transaction(20, reads, writes),
        )
    };
    let cases: [(&str, &Row, &[(u8, u64)], &[(u8, u64)]); 7] = [
        ("other registers read", &early, &[(6, 0), (7, 0)], &[]),
        ("a register read that was read", &early, &[(3, 0)], &[]),
        ("written after a write", &early, &[], &[(K, 0)]),
        ("written under a later write", &later_write, &[], &[(K, 0)]),
        ("other registers written", &late, &[], &[(3, 0), (6, 0)]),
        ("written what was written", &late, &[], &[(2, 0)]),
        ("read under a later read", &late, &[(K, 0)], &[]),
    ];
    cases.into_iter().map(of).collect()
}

/// M7 with another row above its committed reader.
fn m7_beside(name: String, other: Row) -> Asked {
    let name = format!("M7 beside {}", name);
    (name, vec![committed(reader(30, 10)), other], writer(20))
}

/// "the greatest among committed and prepared readers that meet the same inequality": a second reader in every state
/// that a row can have, and a prepared one of each version about the stamp. The companion of M7 is among them.
fn second_readers() -> Vec<Asked> {
    let state = |(prepare, outcome)| {
        let name = format!("a reader with prepare {} and outcome {}", prepare, outcome);
        m7_beside(name, holding(reader(40, 10), prepare, outcome))
    };
    let version = |version| {
        let name = format!("a prepared reader at {}", version);
        m7_beside(name, prepared(reader(40, version)))
    };
    let states = (1..45).map(|state| (state / 5, state % 5)).map(state);
    states.chain([0, 19, 20, 21, 39].map(version)).collect()
}

/// A second reader that is prepared and read another register, or is committed and read too late.
fn other_readers() -> Vec<Asked> {
    let of_register = |register| prepared(transaction(40, &[(register, 10)], &[]));
    let cases = [
        ("a prepared reader of what is written too", of_register(8)),
        ("a prepared reader of what is not written", of_register(6)),
        ("a committed reader at 20", committed(reader(40, 20))),
    ];
    let of = |(name, other): (&str, Row)| m7_beside(name.into(), other);
    cases.into_iter().map(of).collect()
}

/// A prepared reader below the committed one, or with none that counts; and one that only the next stamp meets.
fn readers_in_line() -> Vec<Asked> {
    let of = |(name, stamp, rows): (&str, u64, &[Row])| (name.into(), rows.to_vec(), writer(stamp));
    let (m7, companion) = (committed(reader(30, 10)), prepared(reader(40, 10)));
    let (early, next) = (prepared(reader(25, 10)), prepared(reader(50, 35)));
    let (late, too_late) = (committed(reader(40, 10)), committed(reader(30, 20)));
    let below = [early, m7.clone()];
    let twice = [m7.clone(), late];
    let alone = [companion.clone()];
    let none = [too_late, companion.clone()];
    let all = [m7, companion, next];
    let cases: [(&str, u64, &[Row]); 6] = [
        ("a prepared reader below a committed one", 20, &below),
        ("a committed reader above a committed one", 20, &twice),
        ("a prepared reader alone", 20, &alone),
        ("a committed reader that read too late", 20, &none),
        ("a reader that read above the stamp", 20, &all),
        ("the stamp behind that of RETRY", 41, &all),
    ];
    cases.into_iter().map(of).collect()
}

/// "in this order": A before B before C before D, whichever row stands first; of several readers the greatest stamp.
fn in_this_order() -> Vec<Asked> {
    let both = transaction(20, &[(K, 0)], &[(1, 1)]);
    let a = committed(writer(10));
    let b = committed(transaction(30, &[(1, 0)], &[]));
    let later_b = committed(transaction(40, &[(1, 0)], &[]));
    let prepared_a = prepared(writer(12));
    let prepared_b = prepared(transaction(50, &[(1, 0)], &[]));
    let of = |name: &str, rows: Vec<Row>| (name.into(), rows, both.clone());
    vec![
        of("no rows", Vec::new()),
        of("A and B", vec![a.clone(), b.clone()]),
        of("A and C", vec![a, prepared_b.clone()]),
        of("B and C by a write", vec![prepared_a.clone(), b.clone()]),
        of("B and C by a read", vec![b.clone(), prepared_b.clone()]),
        of("B twice and C", vec![b, later_b, prepared_b.clone()]),
        of("C by a write", vec![prepared_a]),
        of("C by a read", vec![prepared_b]),
    ]
}
