//! The day's order, told step by step: what a box refuses, what it takes all the same, and what a merge keeps.

use crate::told::{t, u, Told, OK, REGISTER_0};
use crate::{breaks, holds, History};
use reference::{Decision, Outcome};
use samples::{Access, Row};
use simulator::faults;
use simulator::law::Law;
use simulator::machine::Machine;
use simulator::watch::Part;

/// Stamp 20 writes register 0, as U does at stamp 10, and reads nothing: the two do not clash.
fn later() -> Row {
    Row::of(20, Vec::new(), vec![REGISTER_0])
}

/// Stamp 10 reads register 0 at version 0.
fn reader() -> Row {
    Row::of(10, vec![REGISTER_0], Vec::new())
}

/// An entry at stamp 10 is declared OK by the fast count of boxes 0 1 2 3. A later one, which these boxes allow, is
/// committed, and of the tables that are merged then that of box 4 alone holds it.
fn later_one_committed(machine: Machine, law: Law, entry: Row) -> Told {
    let mut told = Told::of(machine, law, 5);
    assert_eq!(told.prepare(&entry, &[0, 1, 2, 3]), ["tentative OK"; 4]);
    assert_eq!(told.count(&entry, 0, &[0, 1, 2, 3]), Decision::Fast(OK));
    told.declare(&entry, 0, OK).expect("a lawful declaration");
    assert_eq!(told.settle(&later(), 0, &[2, 3, 4]), OK);
    told.propose(&later(), Outcome::Commit, &[2, 3, 4])
        .expect("a lawful commit");
    let done = told.finish(&later(), 0, Outcome::Commit, &[2, 3, 4]);
    assert_eq!(done, Ok(vec![0, 0, 0]));
    told.change(1, &[0, 1, 4]);
    told.sees_merged(&entry, 1);
    told
}

fn write_before_a_later_one(machine: Machine, law: Law) -> Told {
    later_one_committed(machine, law, u())
}

fn read_before_a_later_one(machine: Machine, law: Law) -> Told {
    later_one_committed(machine, law, reader())
}

/// "The merge keeps the older A and B, because a result already declared final must not be lost when a later stamp came after
/// it."
#[test]
fn a_merge_keeps_what_was_declared_before_a_later_stamp() {
    let lost = "stamp 10 was declared OK in view 0, and the merge for view 1 of boxes 0 4 1 holds";
    let (fault, law) = (faults::DAYS_ORDER_IN_MERGES, Law::whole());
    for (history, turned) in [
        (write_before_a_later_one as History, "final RETRY 20"),
        (read_before_a_later_one, "final ABORT"),
    ] {
        holds(history, "final OK");
        let what = format!("{} {}", lost, turned);
        breaks(history, fault, law, turned, Part::Declared, &what);
    }
}

/// The first is declared OK by boxes 0 1 2, and the second comes to box 0 after it.
fn one_after_the_other(machine: Machine, law: Law, first: Row, second: Row) -> Told {
    let mut told = Told::of(machine, law, 3);
    assert_eq!(told.prepare(&first, &[0, 1, 2]), ["tentative OK"; 3]);
    assert_eq!(told.count(&first, 0, &[0, 1, 2]), Decision::Fast(OK));
    told.declare(&first, 0, OK).expect("a lawful declaration");
    let said = told.prepare(&second, &[0]);
    told.sees(&said[0]);
    told.change(1, &[0, 1]);
    told
}

fn write_under_a_write(machine: Machine, law: Law) -> Told {
    one_after_the_other(machine, law, later(), u())
}

/// Stamp 20 has read what stamp 15 wrote, so that a write at stamp 10 changes nothing of it.
fn write_under_a_read(machine: Machine, law: Law) -> Told {
    let newer = Access {
        number: 15,
        ..REGISTER_0
    };
    let reader = Row::of(20, vec![newer], Vec::new());
    one_after_the_other(machine, law, reader, u())
}

fn read_under_a_write(machine: Machine, law: Law) -> Told {
    one_after_the_other(machine, law, later(), reader())
}

/// "no entry may be slipped under one already accepted"
#[test]
fn an_entry_under_an_accepted_one_is_refused() {
    let what = "box 0 said OK to stamp 10 and held stamp 20 with tentative OK, no outcome";
    let (fault, law) = (faults::OLDER_CHECK_IN_BOXES, Law::whole());
    let histories: [History; 3] = [write_under_a_write, write_under_a_read, read_under_a_write];
    for history in histories {
        holds(history, "tentative ABSTAIN");
        breaks(history, fault, law, "tentative OK", Part::DaysOrder, what);
    }
}

/// What T has read was written over by an entry that lies below it.
fn read_of_an_older_version(machine: Machine, law: Law) -> Told {
    one_after_the_other(machine, law, u(), t())
}

#[test]
fn a_read_of_an_older_version_is_refused() {
    holds(read_of_an_older_version, "tentative ABSTAIN");
    let what = "box 0 said OK to stamp 20 and held stamp 10 with tentative OK, no outcome";
    let (fault, law) = (faults::OK_TO_ALL, Law::whole());
    let seen = "tentative OK";
    breaks(
        read_of_an_older_version,
        fault,
        law,
        seen,
        Part::DaysOrder,
        what,
    );
}

/// U is declared OK by boxes 0 and 1, while box 2 accepts a later entry, and then hears of U's commit.
fn committed_under(machine: Machine, law: Law) -> Told {
    let mut told = Told::of(machine, law, 3);
    assert_eq!(told.settle(&u(), 0, &[0, 1]), OK);
    assert_eq!(told.prepare(&later(), &[2]), ["tentative OK"]);
    told.propose(&u(), Outcome::Commit, &[0, 1, 2])
        .expect("a lawful commit");
    // The row of U holds an outcome alone there, and nothing is checked.
    let said = told.prepare(&u(), &[2]);
    told.sees(&said[0]);
    told.change(1, &[1, 2]);
    told
}

/// "For messages 1 only": an outcome is taken also under an entry that was accepted.
#[test]
fn a_commit_is_taken_under_a_later_entry() {
    holds(committed_under, "tentative OK");
    let told = committed_under(simulator::machine::SECOND, Law::whole());
    let accepted = &told.play.group.accepted;
    assert_eq!(accepted.len(), 1, "{}", told.play.words());
    let merged = &told.play.group.merged[0].table.rows;
    assert!(merged[&10].is_committed(), "{}", told.play.words());
    assert_eq!(merged[&20].prepare_byte(), 5, "{}", told.play.words());
}
