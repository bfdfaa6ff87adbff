//! The two checks and the read of a register, each as the proved library makes it: one pass over the rows, from the last to
//! the first.

use super::valid::Row;
use super::{u64_at, ACCESS_LENGTH};

const COMMIT_DONE: u8 = 3;

/// A transaction whose body lies in a lent slice, a message or a table.
#[derive(Clone, Copy)]
pub(super) struct Transaction<'a> {
    pub(super) stamp: u64,
    pub(super) reads: u8,
    pub(super) writes: u8,
    pub(super) body: &'a [u8],
}

impl<'a> Transaction<'a> {
    pub(super) fn of(row: &Row, image: &'a [u8]) -> Transaction<'a> {
        Transaction {
            stamp: row.stamp,
            reads: row.reads,
            writes: row.writes,
            body: row.body(image),
        }
    }

    fn reads(&self) -> &'a [u8] {
        &self.body[..ACCESS_LENGTH * usize::from(self.reads)]
    }

    fn writes(&self) -> &'a [u8] {
        &self.body[ACCESS_LENGTH * usize::from(self.reads)..]
    }

    /// The value that it writes to a register, if it does.
    fn write_to(&self, register: u8) -> Option<u64> {
        let mut writes = self.writes().chunks_exact(ACCESS_LENGTH);
        let write = writes.find(|write| write[0] == register);
        write.map(|write| u64_at(write, 1))
    }

    /// Whether it writes what another transaction read at a version below its stamp.
    fn overwrites(&self, reader: &Transaction) -> bool {
        let mut reads = reader.reads().chunks_exact(ACCESS_LENGTH);
        reads.any(|read| u64_at(read, 1) < self.stamp && self.write_to(read[0]).is_some())
    }

    /// Whether it writes a register that is marked.
    fn writes_any(&self, marks: &[bool; 64]) -> bool {
        let mut writes = self.writes().chunks_exact(ACCESS_LENGTH);
        writes.any(|write| marks[mark_of(write)])
    }

    /// Whether it reads or writes what another transaction writes, of which the registers are marked.
    fn accesses_what_is_written_by(&self, writer: &Transaction, marks: &[bool; 64]) -> bool {
        let mut accesses = self.body.chunks_exact(ACCESS_LENGTH);
        accesses.any(|access| marks[mark_of(access)] && writer.write_to(access[0]).is_some())
    }
}

/// The place of an access among the marks. As in the library a byte that is no register has the place of one.
fn mark_of(access: &[u8]) -> usize {
    usize::from(access[0]) % 64
}

/// The registers of these accesses, marked.
fn marks_of(accesses: &[u8]) -> [bool; 64] {
    let mut marks = [false; 64];
    for access in accesses.chunks_exact(ACCESS_LENGTH) {
        marks[mark_of(access)] = true;
    }
    marks
}

/// Committed or prepared: of other rows no rule speaks.
fn is_accepted(row: &Row) -> bool {
    row.outcome == COMMIT_DONE || (row.outcome < COMMIT_DONE && matches!(row.prepare, 1 | 5))
}

/// The result of the merge's check as a row has it: its code and its retry stamp.
pub(super) fn check(image: &[u8], rows: usize, new: &Transaction) -> (u8, u64) {
    // Whether A holds of a row, whether B does, the greatest stamp of a later reader, whether C holds of a row.
    let (mut abort, mut retry, mut advice, mut abstain) = (false, false, 0, false);
    for index in (0..rows).rev() {
        let row = Row::read(image, index);
        if !is_accepted(&row) || !clashes(new, &Transaction::of(&row, image)) {
            continue;
        }
        let is_committed = row.outcome == COMMIT_DONE;
        if row.stamp < new.stamp {
            abort |= is_committed;
        } else {
            advice = row.stamp.max(advice);
            retry |= is_committed;
        }
        abstain |= !is_committed;
    }
    told((abort, retry, abstain), advice)
}

/// The result for message 1, by which "no entry may be slipped under one already accepted". A later row is looked at for
/// both rules, and may meet both.
pub(super) fn proposal_check(image: &[u8], rows: usize, new: &Transaction) -> (u8, u64) {
    let (read, written) = (marks_of(new.reads()), marks_of(new.writes()));
    let (mut abort, mut retry, mut advice, mut abstain) = (false, false, 0, false);
    for index in (0..rows).rev() {
        let row = Row::read(image, index);
        if !is_accepted(&row) {
            continue;
        }
        let held = Transaction::of(&row, image);
        let is_committed = row.outcome == COMMIT_DONE;
        if held.writes_any(&read) && held.overwrites(new) {
            abort |= is_committed;
            abstain |= !is_committed;
        }
        if new.stamp < row.stamp && held.accesses_what_is_written_by(new, &written) {
            advice = row.stamp.max(advice);
            retry |= is_committed;
            abstain |= !is_committed;
        }
    }
    told((abort, retry, abstain), advice)
}

/// What A, B and C say together, each told whether it holds of a row.
fn told((abort, retry, abstain): (bool, bool, bool), advice: u64) -> (u8, u64) {
    match (abort, retry, abstain) {
        (true, _, _) => (2, 0),
        (false, true, _) => (4, advice),
        (false, false, true) => (3, 0),
        (false, false, false) => (1, 0),
    }
}

/// Only the later of the two can have read too early.
fn clashes(new: &Transaction, held: &Transaction) -> bool {
    if held.stamp < new.stamp {
        held.overwrites(new)
    } else {
        new.overwrites(held)
    }
}

/// The greatest committed write of a register at or below a stamp: version and value, or 0 and 0.
pub(super) fn newest(image: &[u8], rows: usize, stamp: u64, register: u8) -> (u64, u64) {
    let mut newest = (0, 0);
    for index in (0..rows).rev() {
        let row = Row::read(image, index);
        if row.outcome != COMMIT_DONE || stamp < row.stamp {
            continue;
        }
        let value = Transaction::of(&row, image).write_to(register);
        newest = value.map_or(newest, |value| newest.max((row.stamp, value)));
    }
    newest
}
