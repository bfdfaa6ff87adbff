//! What the two checks say of an entry beside the rows of a table: the one for messages 1, and the merge's.

use super::{changing, codes, merge, normal, propose, row, Accesses, RawRow, TestBox};
use reference::{check, proposal_check, Body, PrepareResult, Rows, Table};

/// A result: its code and its retry stamp.
pub type Told = (u8, u64);

pub const OK: Told = (1, 0);
pub const ABORT: Told = (2, 0);
pub const ABSTAIN: Told = (3, 0);

pub fn retry(stamp: u64) -> Told {
    (4, stamp)
}

fn told(result: PrepareResult) -> Told {
    (result.code(), result.retry_stamp())
}

fn body_of(reads: Accesses, writes: Accesses) -> Body {
    Body {
        reads: reads.iter().copied().collect(),
        writes: writes.iter().copied().collect(),
    }
}

fn rows_of(rows: &[RawRow]) -> Rows {
    let parsed = Table::parse(&normal(0, 3, 0, rows).image());
    parsed.expect("a table").0.rows
}

/// What a box that holds these rows answers message 1 with, and stores.
pub fn proposed(rows: &[RawRow], stamp: u64, reads: Accesses, writes: Accesses) -> Told {
    let mut one = TestBox::holding(&normal(0, 3, 0, rows).image());
    let heard = one.done(&propose(stamp, reads, writes));
    let answered = (heard.state, heard.value);
    assert_eq!(codes(&one.held(), stamp), (heard.state, 0, heard.value));
    let result = proposal_check(&rows_of(rows), stamp, &body_of(reads, writes));
    assert_eq!(told(result), answered);
    answered
}

/// What the merge's check says of an entry beside these rows. If they are as a merge settles rows, one is made of a group
/// of three: the rows stand in both of its tables, and the entry is open in one.
pub fn merged(rows: &[RawRow], stamp: u64, reads: Accesses, writes: Accesses) -> Told {
    let result = check(&rows_of(rows), stamp, &body_of(reads, writes));
    let is_settled =
        |row: &RawRow| !(1..=4).contains(&row.prepare) && [0, 3, 4].contains(&row.outcome);
    if rows.iter().all(is_settled) {
        let mut with_the_entry = rows.to_vec();
        with_the_entry.push(row(stamp, reads, writes, 1, 0));
        with_the_entry.sort_by_key(|row| row.stamp);
        let tables = [
            changing(0, 3, 0, 1, &with_the_entry).image(),
            changing(1, 3, 0, 1, rows).image(),
        ];
        let settled = codes(&merge(&tables, 1).expect("a merge"), stamp);
        assert_eq!(settled, (result.code() + 4, 0, result.retry_stamp()));
    }
    told(result)
}

/// What both say, where they say the same.
pub fn by_both(rows: &[RawRow], stamp: u64, reads: Accesses, writes: Accesses) -> Told {
    let answered = proposed(rows, stamp, reads, writes);
    assert_eq!(merged(rows, stamp, reads, writes), answered);
    answered
}
