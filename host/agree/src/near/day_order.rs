//! The check for messages 1, "no entry may be slipped under one already accepted": what it asks of later rows, and which of
//! them counts. What the merge's check says stands beside each case.

use super::checks::{beside, by_both, committed, prepared, reader, writer, Asked, K};
use super::{holding, transaction};
use crate::cases::Named;
use samples::Row;

pub fn all() -> Vec<Named> {
    let mut asked = later_writes_of_what_is_read();
    asked.extend(later_rows());
    asked.extend(who_counts());
    asked.extend(registers());
    asked.extend(second_rows());
    asked.extend(rows_in_line());
    asked.extend(in_this_order());
    asked.into_iter().flat_map(by_both).collect()
}

/// A transaction that writes K and nothing else.
fn write(stamp: u64) -> Row {
    transaction(stamp, &[], &[(K, 1)])
}

/// "A fires for any committed write of k above version v, also above s": of a version right below the stamp.
fn later_writes_of_what_is_read() -> Vec<Asked> {
    let of = |(v, w, s)| {
        let name = format!("read at {} by {}, written at {} alone", v, s, w);
        beside(&name, write(w), transaction(s, &[(K, v)], &[]))
    };
    let triples = [
        (19, 18, 20),
        (19, 19, 20),
        (19, 20, 20),
        (19, 21, 20),
        (0, 30, 1),
    ];
    triples.into_iter().flat_map(of).collect()
}

/// "B fires when any committed read or write of k has a stamp above s": a write, a read of an early version and one of a
/// late version, about the stamp 20.
fn later_rows() -> Vec<Asked> {
    let of = |stamp: u64| {
        let read = |version| transaction(stamp, &[(K, version)], &[]);
        let rows = [
            ("written", write(stamp)),
            ("read at 0", read(0)),
            ("read late", read(stamp - 1)),
        ];
        let each = rows.into_iter().flat_map(move |(what, row)| {
            let name = format!("written at 20, {} by {}", what, stamp);
            beside(&name, row, write(20))
        });
        each.collect::<Vec<Asked>>()
    };
    [19, 20, 21, 22].into_iter().flat_map(of).collect()
}

/// Of every state that a row can have: a later write of what is written, and one of what is read.
fn who_counts() -> Vec<Asked> {
    let of = |(prepare, outcome)| {
        let name = format!("later, prepare {} and outcome {}", prepare, outcome);
        let row = vec![holding(write(30), prepare, outcome)];
        let read = transaction(20, &[(K, 10)], &[]);
        [
            (
                format!("written under one {}", name),
                row.clone(),
                write(20),
            ),
            (format!("read under one {}", name), row, read),
        ]
    };
    let states = (1..45).map(|state| (state / 5, state % 5));
    states.flat_map(of).collect()
}

/// The register that is written is one that the later row has, on whichever side it stands there; what is only read on
/// both sides is in nobody's way.
fn registers() -> Vec<Asked> {
    // The one reads 1, K and 9 and writes 2; the other reads 3 and writes 4, K and 8.
    let (read, written) = (committed(reader(30, 0)), committed(writer(30)));
    let of = |(row, reads, writes): (&Row, &[(u8, u64)], &[(u8, u64)])| {
        let asked = transaction(20, reads, writes);
        let registers = |of: &[(u8, u64)]| -> Vec<u8> { of.iter().map(|a| a.0).collect() };
        let row_is = if row.reads.len() == 3 {
            "reader"
        } else {
            "writer"
        };
        let (reads, writes) = (registers(reads), registers(writes));
        let name = format!(
            "under a later {}: {:?} read, {:?} written",
            row_is, reads, writes
        );
        (name, vec![row.clone()], asked)
    };
    let cases: [(&Row, &[(u8, u64)], &[(u8, u64)]); 12] = [
        (&read, &[], &[(1, 1)]),
        (&read, &[], &[(9, 1)]),
        (&read, &[], &[(2, 1)]),
        (&read, &[], &[(0, 1), (3, 1), (8, 1)]),
        (&read, &[(1, 0), (K, 0), (9, 0)], &[(3, 1)]),
        (&read, &[(2, 0)], &[]),
        (&read, &[(K, 0)], &[(K, 1)]),
        (&written, &[], &[(3, 1)]),
        (&written, &[], &[(0, 1), (8, 1)]),
        (&written, &[(3, 0)], &[(9, 1)]),
        (&written, &[(K, 0)], &[(K, 1)]),
        (&written, &[(2, 0), (4, 0)], &[(2, 1)]),
    ];
    cases.into_iter().map(of).collect()
}

/// M7 with another row, where 4, K and 8 are written.
fn m7_beside((name, other): (&str, Row)) -> Asked {
    let mut rows = vec![committed(reader(30, 10)), other];
    rows.sort_by_key(|row| row.stamp);
    (format!("M7 beside {}", name), rows, writer(20))
}

/// "giving the greatest committed or prepared one": of any register that is written, and not of another.
fn second_rows() -> Vec<Asked> {
    let write_of = |stamp, register| transaction(stamp, &[], &[(register, 1)]);
    let read_of = |stamp, register| transaction(stamp, &[(register, 19)], &[]);
    let cases = [
        ("a prepared write", prepared(write_of(40, K))),
        ("a prepared write of 4", prepared(write_of(40, 4))),
        ("a prepared write of 8", prepared(write_of(40, 8))),
        ("a prepared write of 2", prepared(write_of(40, 2))),
        ("a prepared read of 4", prepared(read_of(40, 4))),
        ("a prepared read of 3", prepared(read_of(40, 3))),
        ("a committed write", committed(write_of(40, K))),
        ("a committed write of 8", committed(write_of(40, 8))),
        ("an aborted write", holding(write_of(40, K), 5, 4)),
        (
            "a write whose abort is noted",
            holding(write_of(40, K), 5, 2),
        ),
        ("a prepared write at 29", prepared(write_of(29, K))),
        ("a prepared write at 31", prepared(write_of(31, K))),
        ("a prepared write at 21", prepared(write_of(21, K))),
        ("a prepared write at 19", prepared(write_of(19, K))),
        ("a committed write at 29", committed(write_of(29, K))),
        ("a committed write at 19", committed(write_of(19, K))),
    ];
    cases.into_iter().map(m7_beside).collect()
}

/// The stamps about that of RETRY, where a committed write, a prepared one and a prepared read lie in line.
fn rows_in_line() -> Vec<Asked> {
    let rows = vec![
        committed(write(30)),
        prepared(write(40)),
        prepared(transaction(50, &[(K, 45)], &[])),
    ];
    let of = |stamp| {
        let name = format!("written at {} where 30, 40 and 50 are held", stamp);
        (name, rows.clone(), write(stamp))
    };
    [29, 31, 39, 41, 49, 51].into_iter().map(of).collect()
}

/// "A fires", "B fires", "C follows": A over all rows before B over all rows, and both before C. One row may meet A and B.
fn in_this_order() -> Vec<Asked> {
    let asked = transaction(20, &[(K, 0)], &[(1, 1)]);
    let (a, b) = (committed(write(30)), committed(reader(40, 0)));
    let both = committed(transaction(35, &[(1, 0)], &[(K, 1)]));
    let write_of_1 = |stamp| transaction(stamp, &[], &[(1, 1)]);
    let (prepared_a, prepared_b) = (prepared(write(50)), prepared(write_of_1(60)));
    let of = |name: &str, rows: Vec<Row>| (format!("later {}", name), rows, asked.clone());
    vec![
        of("A and then B", vec![a.clone(), b.clone()]),
        of("B and then A", vec![b.clone(), committed(write(45))]),
        of("A and B of one row", vec![both.clone()]),
        of("A and B of one row, and B", vec![both, b.clone()]),
        of("A and C by a write", vec![a.clone(), prepared_b.clone()]),
        of("A and C by a read", vec![a, prepared_a.clone()]),
        of("B and C by a write", vec![b.clone(), prepared_b.clone()]),
        of("B and C by a read", vec![b, prepared_a.clone()]),
        of("C by a write", vec![prepared_b.clone()]),
        of("C by a read", vec![prepared_a.clone()]),
        of("C by both", vec![prepared_a, prepared_b]),
    ]
}
