//! Demand 3 from outside: the five parts of `Survival`, and two things beyond it that are proved too. Each is judged as soon as
//! what it speaks of has come to pass: a new merge against all that was declared and accepted before, and what is declared
//! or accepted now against all merges, "whichever came first". Beside demand 3, of each box alone: the day's order, and the
//! rule of room.

use crate::group::{carried, Accepted, Answered, Declared, Group, Merged};
use crate::room::Room;
use crate::words::{boxes, outcome_name, outcome_words, prepare_words, result_words};
use reference::{Body, HeldOutcome, HeldPrepare, Message, Outcome, PrepareResult, Row, Rows};
use std::fmt::{self, Display, Formatter};

/// What was promised and did not hold.
#[derive(Clone, Copy, Debug, PartialEq, Eq)]
pub enum Part {
    /// "what was declared final stands in every merge for a later view, whichever came first"
    Declared,
    /// "what was accepted by f+1 boxes in one view stands in every merge for a later view"
    Accepted,
    /// "no merge holds what nobody sent: no transaction"
    RowsSent,
    /// "and no outcome"
    OutcomesSent,
    /// "no two committed transactions clash"
    NoClash,
    /// Beyond demand 3: no merge of f+1 tables that promised its view is refused, also not as full.
    MergeDone,
    /// Beyond demand 3: a box below a view that promised nothing above it takes the start-view message.
    StartTaken,
    /// Beside demand 3: "no entry may be slipped under one already accepted", in the box that says OK to it.
    DaysOrder,
    /// Beside demand 3: right above the stamp of a RETRY nothing that the box holds is in the way of a write.
    Advice,
    /// Beside demand 3: a box takes a new stamp while it has room, and refuses it as full once it has none, and nothing else.
    Room,
}

/// Which part did not hold, and of what.
#[derive(Clone, Debug, PartialEq, Eq)]
pub struct Violation {
    pub part: Part,
    pub what: String,
}

impl Display for Violation {
    fn fmt(&self, f: &mut Formatter) -> fmt::Result {
        write!(f, "{:?}: {}", self.part, self.what)
    }
}

fn violation(part: Part, what: String) -> Option<Violation> {
    Some(Violation { part, what })
}

/// A merge that was done just now.
pub fn merge(group: &Group, merged: &Merged) -> Option<Violation> {
    let declared = || {
        group
            .declared
            .iter()
            .find_map(|d| declared_stands(d, merged))
    };
    let accepted = || {
        group
            .accepted
            .iter()
            .find_map(|a| accepted_stands(a, merged))
    };
    let rows = || merged.table.rows.iter();
    declared()
        .or_else(accepted)
        .or_else(|| rows().find_map(|(stamp, row)| row_sent(group, merged, *stamp, row)))
        .or_else(|| rows().find_map(|(stamp, row)| outcome_sent(group, merged, *stamp, row)))
}

/// A result that was declared just now.
pub fn declaration(group: &Group, declared: &Declared) -> Option<Violation> {
    let mut merges = group.merged.iter();
    merges.find_map(|merged| declared_stands(declared, merged))
}

/// An outcome that has found its f+1 boxes just now.
pub fn acceptance(group: &Group, accepted: &Accepted) -> Option<Violation> {
    let mut merges = group.merged.iter();
    merges.find_map(|merged| accepted_stands(accepted, merged))
}

fn declared_stands(declared: &Declared, merged: &Merged) -> Option<Violation> {
    let row = merged.table.rows.get(&declared.stamp);
    let held = row.and_then(|row| row.prepare);
    if declared.view >= merged.view || held == Some(HeldPrepare::finalised(declared.result)) {
        return None;
    }
    let what = format!(
        "stamp {} was declared {} in view {}, and {} holds {}",
        declared.stamp,
        result_words(declared.result),
        declared.view,
        named(merged),
        prepare_words(held)
    );
    violation(Part::Declared, what)
}

fn accepted_stands(accepted: &Accepted, merged: &Merged) -> Option<Violation> {
    let row = merged.table.rows.get(&accepted.stamp);
    let held = row.and_then(|row| row.outcome);
    if accepted.view >= merged.view || held == Some(HeldOutcome::done(accepted.outcome)) {
        return None;
    }
    let what = format!(
        "the {} of stamp {} was accepted by f+1 boxes in view {}, and {} holds {}",
        outcome_name(accepted.outcome),
        accepted.stamp,
        accepted.view,
        named(merged),
        outcome_words(held)
    );
    violation(Part::Accepted, what)
}

fn row_sent(group: &Group, merged: &Merged, stamp: u64, row: &Row) -> Option<Violation> {
    let mut carried = group.sent.iter().filter_map(|sent| carried(&sent.message));
    if carried.any(|sent| sent == (stamp, &row.body)) {
        return None;
    }
    let what = format!(
        "{} holds stamp {} with a body that nobody sent",
        named(merged),
        stamp
    );
    violation(Part::RowsSent, what)
}

fn outcome_sent(group: &Group, merged: &Merged, stamp: u64, row: &Row) -> Option<Violation> {
    let held = row.outcome?;
    let proposal = Message::ProposeOutcome {
        stamp,
        outcome: held.outcome,
        body: row.body.clone(),
    };
    if group.sent.iter().any(|sent| sent.message == proposal) {
        return None;
    }
    let outcome = outcome_name(held.outcome);
    let what = format!(
        "{} holds the {} of stamp {}, which nobody sent",
        named(merged),
        outcome,
        stamp
    );
    violation(Part::OutcomesSent, what)
}

/// A commit that was sent just now. "In demand 3 a transaction is committed once its commit was proposed."
pub fn commit(group: &Group, message: &Message) -> Option<Violation> {
    let (stamp, body) = committed(message)?;
    let mut others = group
        .sent
        .iter()
        .filter_map(|sent| committed(&sent.message));
    others.find_map(|(other, others)| {
        let either_way = overwrites((stamp, body), (other, others))
            || overwrites((other, others), (stamp, body));
        let what = format!(
            "the commits of stamps {} and {} were sent, and they clash",
            stamp, other
        );
        violation(Part::NoClash, what).filter(|_| either_way)
    })
}

fn committed(message: &Message) -> Option<(u64, &Body)> {
    match message {
        Message::ProposeOutcome {
            stamp,
            outcome: Outcome::Commit,
            body,
        } => Some((*stamp, body)),
        _ => None,
    }
}

/// Whether a write of the second, "at its stamp t, lies between a version that the [first] read of that register and the
/// [first's] stamp s".
fn overwrites((s, reader): (u64, &Body), (t, writer): (u64, &Body)) -> bool {
    let mut reads = reader.reads.iter();
    reads.any(|(register, version)| writer.writes.contains_key(register) && *version < t && t < s)
}

/// A merge of f+1 tables of different boxes that promised the view, refused just now.
pub fn refusal(view: u32, of: &[usize], number: u8) -> Option<Violation> {
    let what = format!(
        "the merge for view {} of boxes {} was refused with number {}",
        view,
        boxes(of),
        number
    );
    violation(Part::MergeDone, what)
}

/// A start-view message that arrived just now at a box with this last normal view and this promise.
pub fn start(answered: &Answered, view: u32, (last, promised): (u32, u32)) -> Option<Violation> {
    if answered.number == 0 || last >= view || promised > view {
        return None;
    }
    let what = format!(
        "box {}, in view {} with {} promised, refused to start view {} with number {}",
        answered.by, last, promised, view, answered.number
    );
    violation(Part::StartTaken, what)
}

/// A box said OK just now to a transaction that was new to it, and held these rows before. Each row that it had accepted,
/// and that has a register in common with the transaction which one of the two writes, lies below the transaction; and none
/// of them has written a register above the version that the transaction read of it.
pub fn order(answered: &Answered, new: (u64, &Body), before: &Rows) -> Option<Violation> {
    let (stamp, body) = new;
    let mut accepted = before.iter().filter(|(_, row)| is_accepted(row));
    let (other, row) = accepted.find(|(other, row)| {
        let is_above =
            **other > stamp && (writes_what(body, &row.body) || writes_what(&row.body, body));
        is_above || is_newer((**other, &row.body), body)
    })?;
    let what = format!(
        "box {} said OK to stamp {} and held stamp {} with {}, {}",
        answered.by,
        stamp,
        other,
        prepare_words(row.prepare),
        outcome_words(row.outcome)
    );
    violation(Part::DaysOrder, what)
}

/// A box said RETRY just now to a transaction that was new to it, and would say this of the same body under the stamp right
/// above the one given. That is OK, unless a prepared row that it held has written above a version that was read.
pub fn advice(
    answered: &Answered,
    again: Option<HeldPrepare>,
    body: &Body,
    before: &Rows,
) -> Option<Violation> {
    let is_prepared = |row: &Row| is_accepted(row) && row.outcome_byte() != 3;
    let mut prepared = before.iter().filter(|(_, row)| is_prepared(row));
    let is_stale = prepared.any(|(stamp, row)| is_newer((*stamp, &row.body), body));
    let expected = match is_stale {
        true => PrepareResult::Abstain,
        false => PrepareResult::Ok,
    };
    if again == Some(HeldPrepare::tentative(expected)) {
        return None;
    }
    let what = format!(
        "box {} said RETRY {} to stamp {}, and right above that {}",
        answered.by,
        answered.reply.value,
        answered.reply.stamp,
        prepare_words(again)
    );
    violation(Part::Advice, what)
}

/// A box that had this room took a new stamp just now.
pub fn taken(answered: &Answered, before: Room) -> Option<Violation> {
    let what = format!(
        "box {} took a new stamp and had no room, with {} rows",
        answered.by, before.rows
    );
    violation(Part::Room, what).filter(|_| !before.in_box)
}

/// A box that had this room refused a message as full just now. That is for new stamps.
pub fn full(answered: &Answered, is_new: bool, before: Room) -> Option<Violation> {
    let refused = match (is_new, before.in_box) {
        (true, false) => return None,
        (true, true) => "a new stamp as full and had room",
        (false, _) => "as full what is no new stamp",
    };
    let what = format!(
        "box {} refused {}, with {} rows",
        answered.by, refused, before.rows
    );
    violation(Part::Room, what)
}

/// "Accepted means committed or prepared." "Committed: outcome 3. Prepared: prepare byte 1 or 5 and outcome 0, 1 or 2."
fn is_accepted(row: &Row) -> bool {
    row.outcome_byte() == 3 || matches!(row.prepare_byte(), 1 | 5) && row.outcome_byte() < 3
}

/// Whether the first writes a register that the second reads or writes.
fn writes_what(writer: &Body, other: &Body) -> bool {
    let mut written = writer.writes.keys();
    written
        .any(|register| other.reads.contains_key(register) || other.writes.contains_key(register))
}

/// Whether a write, at its stamp, is newer than the version that the reader has of that register.
fn is_newer((stamp, writer): (u64, &Body), reader: &Body) -> bool {
    let mut reads = reader.reads.iter();
    reads.any(|(register, version)| writer.writes.contains_key(register) && stamp > *version)
}

fn named(merged: &Merged) -> String {
    format!(
        "the merge for view {} of boxes {}",
        merged.view,
        boxes(&merged.boxes)
    )
}
