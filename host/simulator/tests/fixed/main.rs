//! Short histories that break demand 3, the day's order or the rule of room when a rule or a definition is bent, told step by
//! step. With the fault each violates the part that is named; without it, on the library and on the second program, nothing
//! is violated, and the step that makes the difference is shown.

mod confirmed;
mod order;
mod room;
mod told;

use reference::{Decision, Outcome};
use simulator::faults;
use simulator::law::{Law, Rule};
use simulator::machine::{Machine, LIBRARY, SECOND};
use simulator::watch::Part;
use told::{apart, t, u, Told, OK};

type History = fn(Machine, Law) -> Told;

/// Nothing is violated, and this is seen.
fn holds(history: History, seen: &str) {
    for machine in [LIBRARY, SECOND] {
        let told = history(machine, Law::whole());
        let words = told.play.words();
        assert_eq!(told.seen, seen, "{}: {}", machine.name, words);
        let (lost, slipped) = (&told.play.violations, &told.play.out_of_order);
        assert!(told.play.held(), "{:?} {:?} {}", lost, slipped, words);
        assert!(!told.play.group.merged.is_empty() && !told.play.group.declared.is_empty());
    }
}

/// This part is violated, so and not otherwise, and before that this is seen.
fn breaks(history: History, machine: Machine, law: Law, seen: &str, part: Part, what: &str) {
    let told = history(machine, law);
    let words = told.play.words();
    assert_eq!(told.seen, seen, "{}: {}", machine.name, words);
    let first = told.play.first_of(part).expect(&words);
    assert_eq!(first.what, what, "{}", words);
}

const T_TURNED: &str = "stamp 20 was declared OK in view 0, and the merge for view 1 of boxes";

/// "Keeping every agreed OK unchecked lets it clash with a slow final OK." The merge is that of case M11.
fn agreed_against_final(machine: Machine, law: Law) -> Told {
    let mut told = Told::of(machine, law, 5);
    assert_eq!(told.prepare(&t(), &[0, 1]), ["tentative OK"; 2]);
    assert_eq!(told.prepare(&u(), &[2, 3, 4]), ["tentative OK"; 3]);
    assert_eq!(told.count(&u(), 0, &[2, 3, 4]), Decision::Slow(OK));
    told.finalise(&u(), 0, OK, &[2]);
    told.change(1, &[0, 1, 2]);
    told.sees_merged(&t(), 1);
    told.start(1, &[0, 1, 2]);
    for row in [t(), u()] {
        if told.settle(&row, 1, &[0, 1, 2]) == OK {
            told.propose(&row, Outcome::Commit, &[0])
                .expect("a lawful commit");
        }
    }
    told
}

#[test]
fn an_agreed_ok_is_checked() {
    holds(agreed_against_final, "final ABSTAIN");
    let both = "the commits of stamps 10 and 20 were sent, and they clash";
    let (fault, law) = (faults::AGREED_UNCHECKED, Law::whole());
    breaks(
        agreed_against_final,
        fault,
        law,
        "final OK",
        Part::NoClash,
        both,
    );
}

/// T is declared OK by the fast count of boxes 0 1 2 3, and its abort noted by 0 and 1.
fn declared_and_noted(machine: Machine, law: Law) -> Told {
    let mut told = Told::of(machine, law, 5);
    assert_eq!(told.prepare(&t(), &[0, 1, 2, 3]), ["tentative OK"; 4]);
    assert_eq!(told.count(&t(), 0, &[0, 1, 2, 3]), Decision::Fast(OK));
    told.declare(&t(), 0, OK).expect("a lawful declaration");
    told.propose(&t(), Outcome::Abort, &[0, 1])
        .expect("a lawful abort");
    told
}

/// U is prepared at 0 1 4 and made final at 4 with what is counted; then 2 3 4 change to view 1.
fn overtaken(told: &mut Told) {
    let said = told.prepare(&u(), &[0, 1, 4]);
    told.sees(&said[0]);
    let result = told.result(&u(), 0, &[0, 1, 4]);
    told.finalise(&u(), 0, result, &[4]);
    told.change(1, &[2, 3, 4]);
}

/// "Dropping a prepared row when abort is only noted: the abort may be lost and both clash."
fn noted_abort(machine: Machine, law: Law) -> Told {
    let mut told = declared_and_noted(machine, law);
    overtaken(&mut told);
    told
}

#[test]
fn a_noted_abort_frees_nothing() {
    holds(noted_abort, "tentative ABSTAIN");
    let what = format!("{} 2 4 3 holds final ABSTAIN", T_TURNED);
    let (fault, law) = (faults::NOTED_ABORT_FREES, Law::whole());
    breaks(
        noted_abort,
        fault,
        law,
        "tentative OK",
        Part::Declared,
        &what,
    );
}

/// As before, but message 4 is sent to 0 and 1, although only these two boxes accepted.
fn finished_too_soon(machine: Machine, law: Law) -> Told {
    let mut told = declared_and_noted(machine, law);
    let sent = told.finish(&t(), 0, Outcome::Abort, &[0, 1]);
    assert_eq!(
        sent,
        if law.is_bent() {
            Ok(vec![0, 0])
        } else {
            Err(Rule::OnAcceptances)
        }
    );
    overtaken(&mut told);
    told
}

#[test]
fn message_4_waits_for_acceptances() {
    holds(finished_too_soon, "tentative ABSTAIN");
    let what = format!("{} 2 4 3 holds final ABSTAIN", T_TURNED);
    let law = Law::without(Rule::OnAcceptances);
    breaks(
        finished_too_soon,
        LIBRARY,
        law,
        "tentative OK",
        Part::Declared,
        &what,
    );
}

/// "Finishing an abort in a box whose view is older than the one that noted it: the freed row lets a late fast count
/// contradict a merge."
fn finished_in_an_older_view(machine: Machine, law: Law) -> Told {
    let mut told = Told::of(machine, law, 5);
    told.prepare(&t(), &[0, 1, 2]);
    assert_eq!(told.count(&t(), 0, &[0, 1, 2]), Decision::Slow(OK));
    told.finalise(&t(), 0, OK, &[0]);
    assert_eq!(told.prepare(&u(), &[3, 4]), ["tentative OK"; 2]);
    told.change(1, &[0, 3, 4]);
    told.start(1, &[0, 3, 4]);
    told.settle(&apart(30), 1, &[0, 3, 4]);
    told.propose(&t(), Outcome::Abort, &[0, 1, 2, 3, 4])
        .expect("a lawful abort");
    let answered = told.finish(&t(), 1, Outcome::Abort, &[1, 2]);
    told.sees(&format!("{:?}", answered.expect("a lawful message")));
    told.prepare(&u(), &[1, 2]);
    if told.count(&u(), 0, &[1, 2, 3, 4]) == Decision::Fast(OK) {
        told.declare(&u(), 0, OK).expect("a lawful declaration");
    }
    told
}

#[test]
fn an_abort_is_finished_in_its_own_view() {
    holds(finished_in_an_older_view, "[9, 9]");
    let what = "stamp 10 was declared OK in view 0, and the merge for view 1 of boxes 0 4 3 holds final ABSTAIN";
    let (fault, law) = (faults::OUTCOME_OF_ANY_VIEW, Law::whole());
    breaks(
        finished_in_an_older_view,
        fault,
        law,
        "[0, 0]",
        Part::Declared,
        what,
    );
}

/// T is declared OK in view 0 by all three boxes.
fn declared_by_all(machine: Machine, law: Law) -> Told {
    let mut told = Told::of(machine, law, 3);
    told.prepare(&t(), &[0, 1, 2]);
    assert_eq!(told.count(&t(), 0, &[0, 1, 2]), Decision::Fast(OK));
    told.declare(&t(), 0, OK).expect("a lawful declaration");
    told
}

/// View 1 starts at 1 and 2, where T is aborted and U declared OK.
fn replaced_in_view_1(machine: Machine, law: Law) -> Told {
    let mut told = declared_by_all(machine, law);
    // Box 0 hears of U while T stands there.
    assert_eq!(told.prepare(&u(), &[0]), ["tentative ABSTAIN"]);
    told.change(1, &[1, 2]);
    told.start(1, &[1, 2]);
    told.propose(&t(), Outcome::Abort, &[1, 2])
        .expect("a lawful abort");
    assert_eq!(
        told.finish(&t(), 1, Outcome::Abort, &[1, 2]),
        Ok(vec![0, 0])
    );
    assert_eq!(told.settle(&u(), 1, &[1, 2]), OK);
    told
}

/// "Telling a commit to a box still in a view older than the one that declared it: a late merge over that box's table can
/// turn another declared OK."
fn commit_told_too_soon(machine: Machine, law: Law) -> Told {
    let mut told = replaced_in_view_1(machine, law);
    let sent = told.propose(&u(), Outcome::Commit, &[0]);
    told.sees(&format!("{:?}", sent));
    told.change(1, &[0]);
    told
}

#[test]
fn a_commit_is_told_to_no_box_of_an_older_view() {
    holds(commit_told_too_soon, "Err(CommitToALaterBox)");
    let what = format!("{} 0 1 holds final ABORT", T_TURNED);
    let law = Law::without(Rule::CommitToALaterBox);
    breaks(
        commit_told_too_soon,
        LIBRARY,
        law,
        "Ok(())",
        Part::Declared,
        &what,
    );
}

/// The same with message 2 of view 1 in place of the commit, which box 0 refuses with number 9.
fn result_told_too_soon(machine: Machine, law: Law) -> Told {
    let mut told = replaced_in_view_1(machine, law);
    let answered = told.finalise(&u(), 1, OK, &[0]);
    told.sees(&format!("{:?}", answered));
    told.change(1, &[0]);
    told
}

#[test]
fn a_result_is_finalised_in_its_own_view() {
    holds(result_told_too_soon, "[9]");
    let what = format!("{} 0 1 holds final ABSTAIN", T_TURNED);
    let (fault, law) = (faults::RESULT_OF_ANY_VIEW, Law::whole());
    breaks(
        result_told_too_soon,
        fault,
        law,
        "[0]",
        Part::Declared,
        &what,
    );
}

/// Two results for one stamp and view.
fn two_results(machine: Machine, law: Law) -> Told {
    let mut told = Told::of(machine, law, 5);
    told.prepare(&u(), &[4]);
    told.prepare(&t(), &[0, 1, 2, 3]);
    assert_eq!(told.prepare(&t(), &[4]), ["tentative ABSTAIN"]);
    let slow = told.result(&t(), 0, &[0, 1, 4]);
    told.finalise(&t(), 0, slow, &[0]);
    // The fast count over what 0 1 2 3 said at first.
    let first_said: Vec<usize> = told
        .play
        .group
        .replies_for(20)
        .into_iter()
        .take(4)
        .collect();
    assert_eq!(told.play.count(20, 0, &first_said), Ok(Decision::Fast(OK)));
    let declared = told.declare(&t(), 0, OK);
    told.sees(&format!("{:?}", declared));
    // So that something is declared in any case.
    told.settle(&apart(30), 0, &[1, 2, 3]);
    told.change(1, &[0, 1, 4]);
    told
}

#[test]
fn a_stamp_has_one_result_in_a_view() {
    holds(two_results, "Err(OneResult)");
    let what = format!("{} 0 4 1 holds final ABSTAIN", T_TURNED);
    let law = Law::without(Rule::OneResult);
    breaks(two_results, LIBRARY, law, "Ok(())", Part::Declared, &what);
}

/// U is declared OK and its commit told to a box; then the commit of T is told to box 2, which has heard of nothing against it.
fn both_committed(mut told: Told, asked: &[usize], of_u: usize) -> Told {
    assert_eq!(told.settle(&u(), 0, asked), OK);
    told.propose(&u(), Outcome::Commit, &[of_u])
        .expect("a lawful commit");
    let sent = told.propose(&t(), Outcome::Commit, &[2]);
    told.sees(&format!("{:?}", sent));
    told.change(1, &[0, 1]);
    told
}

/// The commit of T is all that the rule forbids, and without the rule two that clash are committed.
fn clash_without(rule: Rule, history: History) {
    holds(history, &format!("Err({:?})", rule));
    let both = "the commits of stamps 20 and 10 were sent, and they clash";
    let law = Law::without(rule);
    breaks(history, LIBRARY, law, "Ok(())", Part::NoClash, both);
}

/// Stamp 20 is declared OK with a body that clashes with nothing, and its commit has the body of T.
fn two_bodies(machine: Machine, law: Law) -> Told {
    let mut told = Told::of(machine, law, 3);
    assert_eq!(told.settle(&apart(20), 0, &[0, 1]), OK);
    both_committed(told, &[0, 1, 2], 2)
}

#[test]
fn a_stamp_has_one_body() {
    clash_without(Rule::OneBody, two_bodies);
}

/// The abort of T is accepted and finished by 0 and 1, which frees its row there; box 2 has not heard of it.
fn both_outcomes(machine: Machine, law: Law) -> Told {
    let mut told = declared_by_all(machine, law);
    told.propose(&t(), Outcome::Abort, &[0, 1])
        .expect("a lawful abort");
    assert_eq!(
        told.finish(&t(), 0, Outcome::Abort, &[0, 1]),
        Ok(vec![0, 0])
    );
    both_committed(told, &[0, 1], 0)
}

#[test]
fn a_stamp_has_one_outcome() {
    clash_without(Rule::NeverBoth, both_outcomes);
}

/// "Cutting a merge at 512 rows." The last of 601 stamps is declared OK. The others come after it to boxes 0 and 1, and get
/// ABSTAIN there, with a row each all the same, as long as the box takes them.
fn more_than_512_stamps(machine: Machine, law: Law) -> Told {
    let mut told = Told::of(machine, law, 3);
    told.prepare(&apart(1_000), &[0, 1, 2]);
    assert_eq!(told.count(&apart(1_000), 0, &[0, 1, 2]), Decision::Fast(OK));
    told.declare(&apart(1_000), 0, OK)
        .expect("a lawful declaration");
    for stamp in 1..=300 {
        told.prepare(&apart(stamp), &[0]);
        told.prepare(&apart(300 + stamp), &[1]);
    }
    told.change(1, &[0, 1]);
    let merged = told.play.group.promised(1);
    let number = told.play.merge(1, &merged);
    told.sees(&format!("{:?}", number));
    // Boxes 0 and 2 have few enough.
    told.change(1, &[2]);
    told
}

/// Boxes that keep room leave nothing to cut. Where they keep none the merge is refused, or a declared OK is cut off.
#[test]
fn a_merge_is_not_cut() {
    let history: History = more_than_512_stamps;
    let law = Law::whole();
    holds(history, "Ok(())");
    assert!(history(faults::CUT_AT_512, law).play.held());
    let refused = "the merge for view 1 of boxes 0 1 was refused with number 7";
    let no_room = faults::NO_ROOM_KEPT;
    breaks(history, no_room, law, "Err(7)", Part::MergeDone, refused);
    let lost = "stamp 1000 was declared OK in view 0, and the merge for view 1 of boxes 0 1 holds no result";
    let cut = faults::CUT_AT_512_WITH_NO_ROOM_KEPT;
    breaks(history, cut, law, "Ok(())", Part::Declared, lost);
}
