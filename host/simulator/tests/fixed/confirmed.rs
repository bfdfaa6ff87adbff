//! What is confirmed, which is what is recorded, and what is not: a commit that f+1 boxes have accepted in one view stands in every
//! later merge. A declared result stands there too, but is no record yet. Of anything else nothing is promised, and it is shown to
//! be missing.

use crate::told::{apart, t, Told, OK};
use reference::{Decision, HeldOutcome, HeldPrepare, Outcome, Rows};
use simulator::law::Law;
use simulator::machine::{Machine, LIBRARY, SECOND};

/// The rows of the merge for a view, of which there is one.
fn merged(told: &Told, view: u32) -> &Rows {
    let mut merges = told.play.group.merged.iter();
    let merge = merges.find(|merged| merged.view == view);
    &merge.expect("a merge for the view").table.rows
}

/// T is declared OK in view 0. Its commit is accepted by box 0 in view 0 and by box 1 in view 1: by f+1 boxes, but in no view
/// by more than f. Stamp 30 was heard by box 0 alone, and stamp 40 is declared OK in view 1.
fn told_to_too_few(machine: Machine) -> Told {
    let mut told = Told::of(machine, Law::whole(), 3);
    told.prepare(&t(), &[0, 1, 2]);
    assert_eq!(told.count(&t(), 0, &[0, 1, 2]), Decision::Fast(OK));
    told.declare(&t(), 0, OK).expect("a lawful declaration");
    let commit = |told: &mut Told, to| told.propose(&t(), Outcome::Commit, &[to]);
    commit(&mut told, 0).expect("a lawful commit");
    assert_eq!(told.prepare(&apart(30), &[0]), ["tentative OK"]);
    told.change(1, &[1, 2]);
    told.start(1, &[1, 2]);
    commit(&mut told, 1).expect("a lawful commit");
    assert_eq!(told.settle(&apart(40), 1, &[1, 2]), OK);
    told.change(2, &[0, 2]);
    told
}

#[test]
fn what_is_not_confirmed_may_be_missing_in_a_merge() {
    for machine in [LIBRARY, SECOND] {
        let told = told_to_too_few(machine);
        let words = told.play.words();
        assert!(told.play.violations.is_empty(), "{}", words);
        assert!(told.play.group.accepted.is_empty(), "{}", words);
        let final_ok = Some(HeldPrepare::finalised(OK));
        let (first, second) = (merged(&told, 1), merged(&told, 2));
        for rows in [first, second] {
            assert_eq!(rows[&20].prepare, final_ok, "{}", words);
            assert_eq!(rows[&20].outcome, None, "{}", words);
            assert!(!rows.contains_key(&30), "{}", words);
        }
        // The merge for the very view of a declaration came before it; the later one holds it.
        assert!(!first.contains_key(&40), "{}", words);
        assert_eq!(second[&40].prepare, final_ok, "{}", words);
    }
}

/// A commit that f+1 boxes have accepted in one view is confirmed, also where box 2 had not heard of it.
#[test]
fn what_is_confirmed_is_in_every_later_merge() {
    for machine in [LIBRARY, SECOND] {
        let mut told = Told::of(machine, Law::whole(), 3);
        assert_eq!(told.settle(&t(), 0, &[0, 1]), OK);
        told.propose(&t(), Outcome::Commit, &[0, 1])
            .expect("a lawful commit");
        assert_eq!(told.play.group.accepted.len(), 1);
        told.change(1, &[1, 2]);
        let row = &merged(&told, 1)[&20];
        let done = Some(HeldOutcome::done(Outcome::Commit));
        assert_eq!(row.outcome, done, "{}", told.play.words());
        assert!(told.play.violations.is_empty(), "{}", told.play.words());
    }
}
