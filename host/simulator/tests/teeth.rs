//! Faults that random play finds: in a box, in a merge, in a count, in a coordinator. Each violates the part that is named.
//! What takes a longer chain of steps is told step by step in `fixed`.

use simulator::faults;
use simulator::law::{Law, Rule};
use simulator::machine::{Machine, LIBRARY};
use simulator::run::{Found, Models, Run};
use simulator::watch::Part;
use std::io::{self, Write};

/// Plays groups of n boxes until the part is violated, for so many histories at most.
fn found(what: &str, run: Run, n: u8, part: Part, within: u64) {
    let run = Run { n: Some(n), ..run };
    let found = run.find(part, within);
    let found = found.unwrap_or_else(|| panic!("{}: not found in {} histories", what, within));
    let first = found.play.first_of(part).expect("what was found");
    writeln!(
        io::stdout(),
        "{}: history {} of {} boxes: {}",
        what,
        found.after,
        n,
        first
    )
    .expect("a place to print to");
    is_played_alone(run, &found, part);
}

/// Whoever reads of a history can play it alone.
fn is_played_alone(run: Run, found: &Found, part: Part) {
    let (seed, n) = (found.seed, found.n);
    let rows = found.play.group.machine.model.rows;
    let (of_rows, models) = match run.models {
        Models::Own => (String::new(), Models::Own),
        _ => (format!(" --rows {}", rows), Models::OfRows(rows)),
    };
    let again = format!("--seed {} --histories 1 --n {}{}", seed, n, of_rows);
    assert!(found.to_string().ends_with(&again), "{}", found);
    let alone = Run {
        seed,
        models,
        ..run
    };
    let words = alone.find(part, 1).map(|alone| alone.play.words());
    assert_eq!(words, Some(found.play.words()));
}

/// A run from the first seed on.
fn run_of(machine: Machine, law: Law, models: Models) -> Run {
    Run {
        machine,
        law,
        seed: 1,
        n: None,
        models,
    }
}

/// A fault of the boxes, merges or counts under coordinators that keep every rule.
fn fault_found(machine: Machine, n: u8, part: Part, within: u64) {
    let run = run_of(machine, Law::whole(), Models::Own);
    found(machine.name, run, n, part, within);
}

/// A fault of boxes with few rows, under such coordinators.
fn fault_in_small_models_found(machine: Machine, n: u8, part: Part, within: u64) {
    let run = run_of(machine, Law::whole(), Models::Small);
    found(machine.name, run, n, part, within);
}

/// Coordinators that do not keep a rule, over the library.
fn bent_rule_found(rule: Rule, n: u8, part: Part, within: u64) {
    let what = format!("without {}", rule);
    let run = run_of(LIBRARY, Law::without(rule), Models::Own);
    found(&what, run, n, part, within);
}

/// "Demand 3 excludes an empty merge."
#[test]
fn an_empty_merge_is_found() {
    fault_found(faults::EMPTY_MERGE, 3, Part::Declared, 10);
    fault_found(faults::EMPTY_MERGE, 5, Part::Declared, 10);
    fault_found(faults::EMPTY_MERGE, 7, Part::Accepted, 500);
}

/// "Demand 2 excludes [..] a box that answers OK to all, and one that replies but never stores"; demand 3 does so too.
#[test]
fn boxes_that_do_not_work_are_found() {
    fault_found(faults::OK_TO_ALL, 3, Part::Declared, 500);
    fault_found(faults::OK_TO_ALL, 5, Part::NoClash, 500);
    fault_found(faults::NEVER_STORES, 3, Part::NoClash, 500);
    fault_found(faults::STORES_NO_ROW, 3, Part::Declared, 10);
    fault_found(faults::STORES_NO_ROW, 7, Part::Accepted, 100);
}

#[test]
fn merges_that_take_the_wrong_tables_are_found() {
    fault_found(faults::OLDER_VIEWS_MERGED, 3, Part::Declared, 6_000);
    fault_found(faults::BOX_COUNTED_TWICE, 3, Part::Declared, 500);
    fault_found(faults::BOX_COUNTED_TWICE, 5, Part::Accepted, 500);
}

#[test]
fn merges_that_settle_rows_wrongly_are_found() {
    fault_found(faults::AGREED_UNCHECKED, 5, Part::NoClash, 10_000);
    fault_found(faults::AGREED_BY_ONE_MORE, 3, Part::Declared, 500);
    fault_found(faults::AGREED_BY_ONE_MORE, 5, Part::Declared, 500);
    fault_found(faults::AGREED_BY_ONE_MORE, 7, Part::Declared, 2_000);
    fault_found(faults::NOTED_OUTCOME_FORGOTTEN, 3, Part::Accepted, 100);
}

#[test]
fn a_fast_count_of_one_less_is_found() {
    fault_found(faults::FAST_WITH_ONE_LESS, 3, Part::Declared, 500);
    fault_found(faults::FAST_WITH_ONE_LESS, 5, Part::Declared, 500);
    fault_found(faults::FAST_WITH_ONE_LESS, 7, Part::Declared, 2_000);
}

#[test]
fn a_start_that_keeps_rows_is_found() {
    fault_found(faults::OWN_ROWS_KEPT, 3, Part::Accepted, 100);
    fault_found(faults::OWN_ROWS_KEPT, 5, Part::Declared, 500);
    fault_found(faults::OWN_ROWS_KEPT, 5, Part::MergeDone, 500);
    fault_found(faults::START_ONLY_IF_PROMISED, 3, Part::StartTaken, 10);
}

/// "nothing in it was not sent by then"
#[test]
fn merges_that_invent_something_are_found() {
    fault_found(faults::BODY_CHANGED, 3, Part::RowsSent, 10);
    fault_found(faults::OUTCOME_INVENTED, 3, Part::OutcomesSent, 500);
}

#[test]
fn a_result_of_another_view_is_found() {
    fault_found(faults::RESULT_OF_ANY_VIEW, 3, Part::Declared, 20_000);
}

/// "no entry may be slipped under one already accepted", and "a result already declared final must not be lost when a later
/// stamp came after it".
#[test]
fn the_two_checks_in_the_wrong_places_are_found() {
    fault_found(faults::OLDER_CHECK_IN_BOXES, 3, Part::DaysOrder, 10);
    fault_found(faults::DAYS_ORDER_IN_MERGES, 3, Part::Declared, 2_000);
    fault_found(faults::DAYS_ORDER_IN_MERGES, 5, Part::Declared, 2_000);
}

/// "Our pump clients take the next stamp above it and at once meet a prepared reader that lies higher."
#[test]
fn a_stamp_that_misleads_is_found() {
    fault_found(faults::ADVISED_BY_COMMITTED_ALONE, 3, Part::Advice, 500);
}

/// "In a dry week two boxes took different entries, and the view change was refused as full."
#[test]
fn boxes_that_keep_no_room_are_found() {
    fault_in_small_models_found(faults::NO_ROOM_KEPT, 3, Part::MergeDone, 100);
    fault_in_small_models_found(faults::NO_ROOM_KEPT, 5, Part::MergeDone, 100);
    fault_in_small_models_found(faults::NO_ROOM_KEPT, 7, Part::MergeDone, 100);
    fault_in_small_models_found(faults::NO_ROOM_KEPT, 3, Part::Room, 10);
}

/// "512 less the start rows, divided by f+1 and rounded down"
#[test]
fn shares_that_are_too_large_are_found() {
    fault_in_small_models_found(faults::SHARE_ROUNDED_UP, 3, Part::MergeDone, 100);
    fault_in_small_models_found(faults::SHARE_ROUNDED_UP, 5, Part::MergeDone, 100);
    fault_in_small_models_found(faults::SHARE_ROUNDED_UP, 7, Part::MergeDone, 500);
    fault_in_small_models_found(faults::SHARED_BY_F, 5, Part::MergeDone, 500);
    fault_in_small_models_found(faults::SHARED_BY_F, 7, Part::MergeDone, 500);
    fault_in_small_models_found(faults::SHARE_OF_ALL_ROWS, 3, Part::MergeDone, 100);
    fault_in_small_models_found(faults::SHARE_OF_ALL_ROWS, 5, Part::MergeDone, 100);
    fault_in_small_models_found(faults::SHARE_OF_ALL_ROWS, 7, Part::MergeDone, 500);
}

/// "the rows added since its view began": a share that is too small endangers nothing, and is noticed all the same. "A group
/// with no room left still reads, finalises and changes view."
#[test]
fn boxes_that_refuse_too_much_as_full_are_found() {
    fault_in_small_models_found(faults::START_ROWS_COUNT, 3, Part::Room, 10);
    fault_in_small_models_found(faults::FULL_TO_ALL, 3, Part::Room, 10);
    fault_in_small_models_found(faults::FULL_TO_ALL, 3, Part::StartTaken, 100);
}

#[test]
fn coordinators_that_keep_not_every_rule_are_found() {
    bent_rule_found(Rule::OneBody, 3, Part::MergeDone, 100);
    bent_rule_found(Rule::OneBody, 3, Part::NoClash, 3_000);
    bent_rule_found(Rule::OneResult, 3, Part::MergeDone, 3_000);
    bent_rule_found(Rule::OnAnAnswer, 3, Part::NoClash, 2_000);
    bent_rule_found(Rule::OnAnAnswer, 5, Part::Declared, 2_000);
    bent_rule_found(Rule::OnFastOrConfirmed, 3, Part::Declared, 100);
    bent_rule_found(Rule::CommitAfterOk, 3, Part::NoClash, 100);
    bent_rule_found(Rule::NeverBoth, 3, Part::MergeDone, 500);
    bent_rule_found(Rule::NeverBoth, 3, Part::NoClash, 1_000);
}
