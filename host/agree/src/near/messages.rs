//! Messages 1 to 4 about a stamp in every state of its row, and message 7.

use super::{changing, holding, lonely, named, normal, proposed, transaction};
use crate::case::Case;
use crate::cases::Named;
use crate::plain::Sent;
use samples::{Row, Table};

/// A result that message 2 brings: its code and its retry stamp.
const RESULTS: [(u8, u64); 5] = [
    (1, 0),
    (2, 0),
    (3, 0),
    (4, super::RETRY),
    (4, super::RETRY + 1),
];

pub fn all() -> Vec<Named> {
    let mut cases = proposed_prepares();
    cases.extend(finalised_prepares());
    cases.extend(outcomes());
    cases.extend(while_changing());
    cases.extend(other_views());
    cases.extend(new_stamps());
    cases.extend(checked());
    cases.extend(unchecked());
    cases.extend(reads());
    cases
}

/// Three rows, the middle one with these two bytes: the others are to stay as they are.
fn about(prepare: u8, outcome: u8) -> Table {
    normal(vec![
        lonely(3, 4, 2),
        lonely(9, prepare, outcome),
        lonely(12, 8, 3),
    ])
}

fn states(prepares: &[u8], outcomes: &[u8]) -> Vec<(u8, u8)> {
    let with = |prepare: &u8| {
        let prepare = *prepare;
        outcomes.iter().map(move |outcome| (prepare, *outcome))
    };
    let all = prepares.iter().flat_map(with);
    all.filter(|state| *state != (0, 0)).collect()
}

/// "If a prepare byte is held, answer it. If only an outcome is held, store and answer tentative OK for commit, ABORT for
/// abort."
fn proposed_prepares() -> Vec<Named> {
    let all = states(&[0, 1, 2, 3, 4, 5, 6, 7, 8], &[0, 2, 3])
        .into_iter()
        .chain([(0, 1), (0, 4)]);
    let case = |(prepare, outcome)| {
        let name = format!("message 1, prepare {}, outcome {}", prepare, outcome);
        let sent = Sent::ProposePrepare(lonely(9, 0, 0));
        named(name, Case::answer(&about(prepare, outcome), sent))
    };
    all.map(case).collect()
}

/// "The row becomes final with that result; an equal final one stays", 6 for an unequal final result, and 8. The outcome does not
/// matter to it.
fn finalised_prepares() -> Vec<Named> {
    let states = states(&[0, 1, 4, 5, 6, 7, 8], &[0, 1, 4]);
    let asked = |(prepare, outcome)| {
        let some = if outcome == 0 {
            &RESULTS[..]
        } else {
            &RESULTS[..1]
        };
        some.iter()
            .map(move |result| finalised(*result, prepare, outcome))
    };
    states.into_iter().flat_map(asked).collect()
}

fn finalised((code, retry): (u8, u64), prepare: u8, outcome: u8) -> Named {
    let result = format!("{} {}", code, retry);
    let name = format!(
        "message 2 with {}, prepare {}, outcome {}",
        result, prepare, outcome
    );
    let sent = Sent::FinalisePrepare(9, 4, (code, retry));
    named(name, Case::answer(&about(prepare, outcome), sent))
}

/// Messages 3 and 4 with commit and abort, for every outcome held: noted, done, 6 or 8. The prepare does not matter to them.
fn outcomes() -> Vec<Named> {
    let states = states(&[0, 8], &[0, 1, 2, 3, 4]);
    let both = |(prepare, outcome)| {
        let commit = outcomes_about(1, prepare, outcome);
        commit
            .into_iter()
            .chain(outcomes_about(2, prepare, outcome))
    };
    states.into_iter().flat_map(both).collect()
}

fn outcomes_about(verdict: u8, prepare: u8, outcome: u8) -> [Named; 2] {
    let table = about(prepare, outcome);
    let state = format!("{}, prepare {}, outcome {}", verdict, prepare, outcome);
    let proposed = Sent::ProposeOutcome(lonely(9, 0, 0), verdict);
    let finalised = Sent::FinaliseOutcome(9, 4, verdict);
    [
        named(
            format!("message 3 with {}", state),
            Case::answer(&table, proposed),
        ),
        named(
            format!("message 4 with {}", state),
            Case::answer(&table, finalised),
        ),
    ]
}

/// A message of each kind that a normal box of view 4 takes, and the number of its kind.
fn taken() -> Vec<(u8, Sent)> {
    vec![
        (1, Sent::ProposePrepare(lonely(9, 0, 0))),
        (2, Sent::FinalisePrepare(9, 4, (1, 0))),
        (3, Sent::ProposeOutcome(lonely(9, 0, 0), 1)),
        (4, Sent::FinaliseOutcome(9, 4, 1)),
        (7, Sent::Read(12, 12)),
    ]
}

/// "messages 1 to 4 and 7 while mode is 1", and what is looked at before and after that.
fn while_changing() -> Vec<Named> {
    let rows = about(1, 1).rows;
    let (before, after) = (normal(rows.clone()), changing(rows));
    let to = |name: String, held: &Table, sent| named(name, Case::answer(held, sent));
    let mode_0 = |(kind, sent)| to(format!("message {} in mode 0", kind), &before, sent);
    let mode_1 = |(kind, sent)| to(format!("message {} in mode 1", kind), &after, sent);
    let mut cases: Vec<Named> = taken().into_iter().map(mode_0).collect();
    cases.extend(taken().into_iter().map(mode_1));
    let others = [
        ("a bad message 7 in mode 1", Sent::Read(12, 64)),
        (
            "message 2 in mode 1 for another view",
            Sent::FinalisePrepare(9, 5, (1, 0)),
        ),
        (
            "message 4 in mode 1 of an unknown stamp",
            Sent::FinaliseOutcome(10, 4, 1),
        ),
        (
            "message 3 in mode 1 with another body",
            Sent::ProposeOutcome(transaction(9, &[], &[(9, 8)]), 2),
        ),
    ];
    cases.extend(others.map(|(name, sent)| to(name.to_string(), &after, sent)));
    cases
}

/// "message 2 or 4 for a view that isn't the box's", of a stamp that is held and of one that is not.
fn other_views() -> Vec<Named> {
    let both = |(view, stamp)| {
        let name = format!("of stamp {} for view {}", stamp, view);
        let prepare = Sent::FinalisePrepare(stamp, view, (1, 0));
        let outcome = Sent::FinaliseOutcome(stamp, view, 1);
        [
            named(
                format!("message 2 {}", name),
                Case::answer(&about(1, 1), prepare),
            ),
            named(
                format!("message 4 {}", name),
                Case::answer(&about(1, 1), outcome),
            ),
        ]
    };
    let views = [(3, 9), (4, 9), (5, 9), (5, 10), (4, 10)];
    views.into_iter().flat_map(both).collect()
}

/// Where a new row goes. Whether there is room for one is asked in [`super::room`].
fn new_stamps() -> Vec<Named> {
    let usual = lonely(9, 0, 0);
    let other = transaction(9, &[], &[(9, 8)]);
    let cases = [
        ("of the first stamp of all", &[][..], &usual),
        ("of a stamp before the others", &[10, 12], &usual),
        ("of a stamp between the others", &[8, 10], &usual),
        ("of a stamp behind the others", &[7, 8], &usual),
        ("of a stamp that is held", &[7, 9, 10], &usual),
        (
            "of a stamp that is held with another body",
            &[7, 9, 10],
            &other,
        ),
    ];
    let held = |stamps: &[u64]| normal(stamps.iter().map(|stamp| lonely(*stamp, 1, 0)).collect());
    let ask = |(name, stamps, row): &(&str, &[u64], &Row)| proposed(name, &held(stamps), row);
    cases.iter().flat_map(ask).collect()
}

/// "add a row with the check's tentative result": a new stamp beside a committed write of register 1 and a prepared one of
/// register 3, and below a committed read of register 2, a prepared write of register 6 and a committed one of register 7.
fn checked() -> Vec<Named> {
    let held = entries();
    let of = |(result, reads, writes): (&str, &[(u8, u64)], &[(u8, u64)])| {
        let sent = Sent::ProposePrepare(transaction(20, reads, writes));
        named(
            format!("message 1 checked {}", result),
            Case::answer(&held, sent),
        )
    };
    let cases: [(&str, &[(u8, u64)], &[(u8, u64)]); 9] = [
        ("ABORT", &[(1, 0)], &[]),
        ("RETRY", &[], &[(2, 0)]),
        ("ABSTAIN", &[(3, 0)], &[]),
        ("OK", &[(2, 0)], &[(1, 0)]),
        ("ABORT for a later write", &[(7, 19)], &[]),
        ("RETRY for a later write", &[], &[(7, 0)]),
        ("RETRY with a prepared write", &[], &[(2, 0), (6, 0)]),
        ("ABSTAIN to a read", &[(6, 19)], &[]),
        ("ABSTAIN to a write", &[], &[(6, 0)]),
    ];
    cases.into_iter().map(of).collect()
}

fn entries() -> Table {
    normal(vec![
        holding(transaction(10, &[], &[(1, 1)]), 5, 3),
        holding(transaction(12, &[], &[(3, 1)]), 1, 0),
        holding(transaction(30, &[(2, 0)], &[]), 5, 3),
        holding(transaction(40, &[], &[(6, 1)]), 1, 0),
        holding(transaction(50, &[], &[(7, 1)]), 5, 3),
    ])
}

/// "For messages 1 only": an outcome is noted under a later entry, and a row that holds one, or a prepare, is not checked.
fn unchecked() -> Vec<Named> {
    let entry = transaction(20, &[(7, 0)], &[(7, 2)]);
    let with = |prepare, outcome| {
        let mut held = entries();
        held.rows
            .insert(2, holding(entry.clone(), prepare, outcome));
        held
    };
    let prepare = || Sent::ProposePrepare(entry.clone());
    let outcome = |verdict| Sent::ProposeOutcome(entry.clone(), verdict);
    let cases = [
        ("message 3 with commit", entries(), outcome(1)),
        ("message 3 with abort", entries(), outcome(2)),
        ("message 1 after commit", with(0, 1), prepare()),
        ("message 1 after abort", with(0, 4), prepare()),
        ("message 1 after OK", with(1, 0), prepare()),
        ("message 2 after ABORT", with(2, 0), finalised_ok(20)),
    ];
    let of = |(name, held, sent): (&str, Table, Sent)| {
        let name = format!("{} under a later entry", name);
        named(name, Case::answer(&held, sent))
    };
    cases.into_iter().map(of).collect()
}

fn finalised_ok(stamp: u64) -> Sent {
    Sent::FinalisePrepare(stamp, 4, (1, 0))
}

/// "Finds the greatest done-commit write of that register at or below the stamp."
fn reads() -> Vec<Named> {
    let write = |stamp, value, prepare, outcome| {
        let writes = [(4, 900), (5, value)];
        holding(transaction(stamp, &[(6, 2)], &writes), prepare, outcome)
    };
    let table = normal(vec![
        write(10, 100, 0, 3),
        write(20, 50, 6, 3),
        write(30, 70, 1, 0),
        write(40, 80, 5, 1),
        write(50, 90, 5, 4),
        write(60, 95, 5, 3),
    ]);
    let case = |(stamp, register): &(u64, u8)| {
        let name = format!("read of register {} at {}", register, stamp);
        named(name, Case::answer(&table, Sent::Read(*stamp, *register)))
    };
    let asked = [
        (9, 5),
        (10, 5),
        (19, 5),
        (20, 5),
        (59, 5),
        (60, 5),
        (61, 5),
        (61, 3),
        (61, 4),
        (61, 6),
    ];
    asked.iter().map(case).collect()
}
