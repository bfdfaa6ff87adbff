//! The check for messages 1, as document 02 has it: "no entry may be slipped under one already accepted". The merge has
//! the older one.

use crate::body::Body;
use crate::row::{PrepareResult, Row, Rows};

/// The result that message 1 gets for a new stamp: A, B, C and D in document 01's order.
pub fn proposal_check(rows: &Rows, s: u64, body: &Body) -> PrepareResult {
    let committed = || rows.iter().filter(|(_, row)| row.is_committed());
    let prepared = || rows.iter().filter(|(_, row)| row.is_prepared());
    if committed().any(|(w, row)| read_is_stale(*w, row, body)) {
        return PrepareResult::Abort;
    }
    // "B fires when any committed read or write of k has a stamp above s, giving the greatest committed or prepared one".
    let in_the_way = |(other, row): &(&u64, &Row)| **other > s && accesses_a_write(row, body);
    if committed().any(|held| in_the_way(&held)) {
        let accepted = committed().chain(prepared()).filter(in_the_way);
        let greatest = accepted.map(|(other, _)| *other).max();
        return PrepareResult::Retry(greatest.expect("a committed one is among them"));
    }
    // "C follows with prepared ones."
    if prepared().any(|held| read_is_stale(*held.0, held.1, body) || in_the_way(&held)) {
        return PrepareResult::Abstain;
    }
    PrepareResult::Ok
}

/// "A fires for any committed write of k above version v, also above s": of the row at w.
fn read_is_stale(w: u64, row: &Row, body: &Body) -> bool {
    let mut reads = body.reads.iter();
    reads.any(|(k, v)| row.body.writes.contains_key(k) && w > *v)
}

/// "read or write of k", where T writes k.
fn accesses_a_write(row: &Row, body: &Body) -> bool {
    let mut written = body.writes.keys();
    written.any(|k| row.body.reads.contains_key(k) || row.body.writes.contains_key(k))
}
