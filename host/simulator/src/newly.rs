//! Results that a box gives to a new transaction by the day's order alone: the rows that it holds would not have given them
//! by the older check, which the merge keeps.

use reference::{Body, PrepareResult, Row, Rows};

/// The name under which such a result is counted, of a transaction that came to these rows.
pub fn by_days_order(
    result: PrepareResult,
    (s, body): (u64, &Body),
    before: &Rows,
) -> Option<&'static str> {
    let kind = match result {
        PrepareResult::Abstain => Row::is_prepared,
        _ => Row::is_committed,
    };
    let held = before.iter().filter(|(_, row)| kind(row));
    let (later, earlier): (Vec<_>, Vec<_>) = held.partition(|(stamp, _)| **stamp > s);
    let overwritten = |(stamp, row): &(&u64, &Row)| is_written_over(body, (**stamp, row));
    if earlier.iter().any(overwritten) {
        return None;
    }
    let mut versions = later.iter().flat_map(|(_, row)| versions_read(row, body));
    let older_read = versions.any(|version| version < s);
    let above = later.iter().any(overwritten);
    let later_write = later.iter().any(|(_, row)| has_a_write_of(row, body));
    match result {
        PrepareResult::Ok => None,
        PrepareResult::Abort => Some("ABORT by a write above the stamp"),
        _ if older_read => None,
        PrepareResult::Retry(_) if later_write => Some("RETRY by a later write"),
        PrepareResult::Retry(_) => Some("RETRY by a later read of a newer version"),
        PrepareResult::Abstain if above => Some("ABSTAIN by a write above the stamp"),
        PrepareResult::Abstain if later_write => Some("ABSTAIN by a later write"),
        PrepareResult::Abstain => Some("ABSTAIN by a later read of a newer version"),
    }
}

/// Whether the row writes a register above the version that the transaction read of it.
fn is_written_over(body: &Body, (stamp, row): (u64, &Row)) -> bool {
    let mut reads = body.reads.iter();
    reads.any(|(register, version)| row.body.writes.contains_key(register) && stamp > *version)
}

/// The versions that the row read of registers that the transaction writes.
fn versions_read(row: &Row, body: &Body) -> Vec<u64> {
    let read = |register| row.body.reads.get(register).copied();
    body.writes.keys().filter_map(read).collect()
}

/// Whether the row writes a register that the transaction writes.
fn has_a_write_of(row: &Row, body: &Body) -> bool {
    let mut written = body.writes.keys();
    written.any(|register| row.body.writes.contains_key(register))
}
