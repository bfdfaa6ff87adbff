//! "The check", with rule B as document 02 mends it. It is the merge's: messages 1 are checked by [`crate::day_order`].

use crate::body::Body;
use crate::row::{PrepareResult, Row, Rows};

/// "For transaction T at stamp s, in this order". The rows are those of a table that does not hold s.
pub fn check(rows: &Rows, stamp: u64, body: &Body) -> PrepareResult {
    let committed = Row::is_committed;
    let prepared = Row::is_prepared;
    if read_is_overwritten(rows, committed, stamp, body) {
        return PrepareResult::Abort;
    }
    let committed_reader = greatest_later_reader(rows, committed, stamp, body);
    let prepared_reader = greatest_later_reader(rows, prepared, stamp, body);
    // 02: "it still fires only on a committed reader, but the stamp returned is the greatest among committed and
    // prepared readers that meet the same inequality."
    if let Some(reader) = committed_reader {
        return PrepareResult::Retry(reader.max(prepared_reader.unwrap_or(reader)));
    }
    // "C. A or B holds with prepared for committed: ABSTAIN."
    if read_is_overwritten(rows, prepared, stamp, body) || prepared_reader.is_some() {
        return PrepareResult::Abstain;
    }
    // "D. Otherwise OK."
    PrepareResult::Ok
}

/// "A. T read register k at version v and a committed write of k has stamp w, v < w < s".
fn read_is_overwritten(rows: &Rows, counts: fn(&Row) -> bool, s: u64, body: &Body) -> bool {
    rows.iter().filter(|(_, row)| counts(row)).any(|(w, row)| {
        body.reads
            .iter()
            .any(|(k, v)| row.body.writes.contains_key(k) && v < w && *w < s)
    })
}

/// "B. T writes k and a committed transaction at s' read k at v', v' < s < s'": the greatest such s'.
fn greatest_later_reader(
    rows: &Rows,
    counts: fn(&Row) -> bool,
    s: u64,
    body: &Body,
) -> Option<u64> {
    let later_reader = |(reader, row): &(&u64, &Row)| {
        let read = &row.body.reads;
        counts(row)
            && body
                .writes
                .keys()
                .any(|k| read.get(k).map_or(false, |v| *v < s && s < **reader))
    };
    rows.iter()
        .filter(later_reader)
        .map(|(stamp, _)| *stamp)
        .max()
}
