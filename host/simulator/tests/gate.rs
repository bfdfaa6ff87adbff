//! Random lawful histories on the library: demand 3 holds in each, boxes keep the day's order and room for the merge, and each
//! thing that makes a history hard was met often. What is met with few rows only, is met in small models.

use simulator::law::Law;
use simulator::machine::{Machine, LIBRARY, SECOND};
use simulator::met::Met;
use simulator::run::{Models, Run};
use std::io::{self, Write};

const HISTORIES: u64 = 18_000;
/// In small models, which the library does not have.
const SMALL_HISTORIES: u64 = 6_000;
/// So often at least each thing was met in all.
const LEAST: u64 = 100;

/// All that a run must meet.
const ALL_KINDS: [&str; 58] = [
    "ABORT by a write above the stamp",
    "ABSTAIN by a later read of a newer version",
    "ABSTAIN by a later write",
    "ABSTAIN by a write above the stamp",
    "RETRY by a later read of a newer version",
    "RETRY by a later write",
    "RETRY with ABSTAIN right above its stamp",
    "RETRY with OK right above its stamp",
    "RETRY with a prepared reader's stamp",
    "abort proposed of a declared OK",
    "accepted by f+1 after a merge of a later view",
    "accepted by f+1: abort",
    "accepted by f+1: commit",
    "commit proposed after a merge of a later view",
    "counts that are fast",
    "counts that are slow",
    "counts that wait",
    "declared after a merge of a later view",
    "declared confirmed ABORT",
    "declared confirmed ABSTAIN",
    "declared confirmed OK",
    "declared confirmed RETRY",
    "declared fast ABORT",
    "declared fast ABSTAIN",
    "declared fast OK",
    "declared fast RETRY",
    "deliveries behind a later message",
    "deliveries lost",
    "deliveries repeated",
    "different merges",
    "different merges with ABORT",
    "different merges with ABSTAIN",
    "different merges with OK",
    "different merges with RETRY",
    "different merges with a commit",
    "different merges with an abort",
    "different merges with an outcome alone",
    "events",
    "forbidden by rule 1: one stamp, one body",
    "forbidden by rule 2: one result per stamp and view",
    "forbidden by rule 3: message 2 only on a fast or slow answer",
    "forbidden by rule 4: declared only on the fast count or confirmations",
    "forbidden by rule 5: commit only after OK was declared",
    "forbidden by rule 5: commit to no box of an older view",
    "forbidden by rule 5: never both outcomes",
    "forbidden by rule 6: message 4 only on f+1 acceptances",
    "forbidden by rule 7: nothing finalised or declared after an outcome",
    "histories",
    "merges after their view was started",
    "merges judged",
    "merges that check to RETRY of a prepared reader",
    "merges that settle an agreed row",
    "merges that settle an open row",
    "merges with a table of an older view",
    "strange merges refused",
    "views started",
    "views started by a box that had not promised them",
    "views started by a box that missed some before",
];

/// All that a run in small models must meet besides, and no other run does.
const SMALL_KINDS: [&str; 7] = [
    "different merges with every row taken",
    "histories of small models",
    "new stamps refused for want of room",
    "reads with no room left",
    "results and outcomes finalised with no room left",
    "views started by a group with no room left",
    "views started that made room again",
];

/// What a run may meet besides: replies that contradict each other, as they do when message 2 overtook a fast count.
const RARE: &str = "counts refused";

fn played(machine: Machine, models: Models, histories: u64) -> Met {
    let run = Run {
        machine,
        law: Law::whole(),
        seed: 1,
        n: None,
        models,
    };
    let mut met = Met::default();
    match run.play(&mut met, |played| played < histories) {
        Ok(played) => assert_eq!(played, histories),
        Err(found) => panic!("{}", found),
    }
    met
}

#[test]
fn demand_3_holds_in_every_history() {
    let met = played(LIBRARY, Models::Own, HISTORIES);
    all_met(&met, &ALL_KINDS);
    met_often(&met, &ALL_KINDS);
}

/// Boxes with 6 to 12 rows for 512 are full soon. The second program has such boxes, and plays what the library cannot.
#[test]
fn demand_3_holds_in_small_models() {
    let met = played(SECOND, Models::Small, SMALL_HISTORIES);
    all_met(&met, &[&ALL_KINDS[..], &SMALL_KINDS].concat());
    met_often(&met, &SMALL_KINDS);
}

/// Each of these things was met by groups of each size, and no other thing was.
fn all_met(met: &Met, kinds: &[&str]) {
    // Written past the test harness, which would keep it to itself: the counts are for whoever reads the gate's output.
    writeln!(io::stdout(), "\n{}", met).expect("a place to print to");
    let unknown = met
        .kinds()
        .find(|kind| *kind != RARE && !kinds.contains(kind));
    assert_eq!(unknown, None);
    for kind in kinds {
        let by_size = met.by_size(kind);
        assert!(!by_size.contains(&0), "{}: {:?}", kind, by_size);
    }
}

fn met_often(met: &Met, kinds: &[&str]) {
    for kind in kinds {
        assert!(met.all(kind) >= LEAST, "{}: {} times", kind, met.all(kind));
    }
}

/// The library with the call that answers with the number alone.
const NUMBER_ALONE: Machine = Machine {
    name: "the library, which answers with the number alone",
    answer: |_, table, message, reply| boundary::answer(table, message, reply),
    ..LIBRARY
};

/// The same seeds lead the second program through the same histories, to the last count, and the library by its other
/// call.
#[test]
fn the_second_program_and_the_number_alone_are_played_alike() {
    let met = played(LIBRARY, Models::Own, 300);
    assert_eq!(played(SECOND, Models::Own, 300), met);
    assert_eq!(played(NUMBER_ALONE, Models::Own, 300), met);
}
