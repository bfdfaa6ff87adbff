//! The check for messages 1, as document 02 has it: "no entry may be slipped under one already accepted". Where the merge
//! says something else, that stands beside it.

mod common;
use common::checks::{by_both, merged, proposed, retry, ABORT, ABSTAIN, OK};
use common::{change, codes, finish, outcome, propose, row, Accesses, RawRow, TestBox};

const K: u8 = 7;
/// Another register.
const L: u8 = 8;

fn committed(stamp: u64, reads: Accesses, writes: Accesses) -> RawRow {
    row(stamp, reads, writes, 5, 3)
}

fn prepared(stamp: u64, reads: Accesses, writes: Accesses) -> RawRow {
    row(stamp, reads, writes, 1, 0)
}

/// A row that read K, and one that writes it.
fn reader(stamp: u64) -> RawRow {
    committed(stamp, &[(K, 0)], &[])
}

fn writer(stamp: u64) -> RawRow {
    committed(stamp, &[], &[(K, 1)])
}

/// "A fires for any committed write of k above version v, also above s"
#[test]
fn a_write_above_the_stamp_aborts_a_read() {
    assert_eq!(proposed(&[writer(10)], 8, &[(K, 0)], &[]), ABORT);
    assert_eq!(merged(&[writer(10)], 8, &[(K, 0)], &[]), OK);
    // Versions lie below their stamp, so that any write above s is above v.
    assert_eq!(proposed(&[writer(10)], 9, &[(K, 8)], &[]), ABORT);
    assert_eq!(by_both(&[writer(10)], 11, &[(K, 9)], &[]), ABORT);
    assert_eq!(by_both(&[writer(10)], 11, &[(K, 10)], &[]), OK);
}

/// "B fires when any committed read or write of k has a stamp above s"
#[test]
fn a_later_read_or_a_later_write_alone_is_told_of_with_retry() {
    assert_eq!(proposed(&[writer(10)], 9, &[], &[(K, 1)]), retry(10));
    assert_eq!(merged(&[writer(10)], 9, &[], &[(K, 1)]), OK);
    let late = committed(10, &[(K, 9)], &[]);
    assert_eq!(proposed(&[late.clone()], 9, &[], &[(K, 1)]), retry(10));
    assert_eq!(merged(&[late], 9, &[], &[(K, 1)]), OK);
    // At or below s there is none.
    assert_eq!(by_both(&[writer(10)], 11, &[], &[(K, 1)]), OK);
    assert_eq!(by_both(&[reader(10)], 11, &[], &[(K, 1)]), OK);
}

#[test]
fn a_later_row_of_other_registers_is_not_in_the_way() {
    let other = [committed(30, &[(L, 0)], &[(L, 1)])];
    assert_eq!(by_both(&other, 20, &[], &[(K, 1)]), OK);
    assert_eq!(by_both(&other, 20, &[(K, 0)], &[(K, 1)]), OK);
}

/// What is only read is in the way of nobody who reads it.
#[test]
fn a_read_under_a_later_read_is_ok() {
    assert_eq!(by_both(&[reader(30)], 20, &[(K, 0)], &[]), OK);
    assert_eq!(by_both(&[reader(30)], 20, &[(K, 19)], &[(L, 1)]), OK);
}

/// "giving the greatest committed or prepared one": read or written, and of any register that is written.
#[test]
fn retry_has_the_greatest_stamp_committed_or_prepared() {
    let first = reader(30);
    for second in [
        prepared(40, &[(K, 0)], &[]),
        prepared(40, &[(K, 35)], &[]),
        prepared(40, &[], &[(K, 1)]),
        prepared(40, &[], &[(L, 1)]),
        committed(40, &[(L, 0)], &[]),
    ] {
        let rows = [first.clone(), second];
        let told = proposed(&rows, 20, &[], &[(K, 1), (L, 1)]);
        assert_eq!(told, retry(40));
    }
    let rows = [
        prepared(25, &[], &[(K, 1)]),
        first,
        prepared(40, &[], &[(L, 1)]),
    ];
    assert_eq!(proposed(&rows, 20, &[], &[(K, 1)]), retry(30));
    assert_eq!(proposed(&rows, 20, &[], &[(L, 1)]), ABSTAIN);
}

/// "C follows with prepared ones."
#[test]
fn a_later_prepared_row_alone_abstains_whether_it_reads_or_writes() {
    for held in [
        prepared(30, &[(K, 0)], &[]),
        prepared(30, &[(K, 25)], &[]),
        prepared(30, &[], &[(K, 1)]),
    ] {
        assert_eq!(proposed(&[held.clone()], 20, &[], &[(K, 1)]), ABSTAIN);
        assert_eq!(proposed(&[held], 31, &[], &[(K, 1)]), OK);
    }
    let writer = [prepared(30, &[], &[(K, 1)])];
    assert_eq!(proposed(&writer, 20, &[(K, 0)], &[]), ABSTAIN);
    assert_eq!(by_both(&writer, 31, &[(K, 29)], &[]), ABSTAIN);
    assert_eq!(by_both(&writer, 31, &[(K, 30)], &[]), OK);
}

/// What a row in this state is to A, to B by a read and to B by a write: committed, prepared, or nothing.
fn told_beside(prepare: u8, outcome: u8) -> [(u8, u64); 3] {
    let with = |reads: Accesses, writes: Accesses| {
        let mut held = row(30, reads, writes, prepare, outcome);
        held.retry = if prepare == 4 || prepare == 8 { 99 } else { 0 };
        [held]
    };
    [
        proposed(&with(&[], &[(K, 1)]), 20, &[(K, 0)], &[]),
        proposed(&with(&[(K, 10)], &[]), 20, &[], &[(K, 1)]),
        proposed(&with(&[], &[(K, 1)]), 20, &[], &[(K, 1)]),
    ]
}

/// A row whose abort is done counts for nothing, and one whose abort is only noted counts as prepared.
#[test]
fn committed_and_prepared_are_what_they_are_in_document_01() {
    for (prepare, outcome) in (0..=8).flat_map(|p| (0..=4).map(move |o| (p, o))) {
        if prepare + outcome == 0 {
            continue;
        }
        let expected = match (prepare, outcome) {
            (_, 3) => [ABORT, retry(30), retry(30)],
            (1, 0..=2) | (5, 0..=2) => [ABSTAIN; 3],
            _ => [OK; 3],
        };
        let found = told_beside(prepare, outcome);
        assert_eq!(found, expected, "{} {}", prepare, outcome);
    }
}

/// A over all rows before B over all rows, and both before C.
#[test]
fn abort_comes_before_retry_and_retry_before_abstain() {
    let reads = [(K, 0)];
    // The same row, a later write of what is read and written, is A's and B's.
    assert_eq!(proposed(&[writer(30)], 20, &reads, &[(K, 1)]), ABORT);
    let (a, b) = (committed(30, &[], &[(1, 1)]), committed(40, &[(2, 0)], &[]));
    let (prepared_a, prepared_b) = (prepared(50, &[], &[(1, 1)]), prepared(60, &[], &[(2, 1)]));
    let asked = |rows: &[RawRow]| proposed(rows, 20, &[(1, 0)], &[(2, 1)]);
    assert_eq!(asked(&[a.clone(), b.clone()]), ABORT);
    assert_eq!(asked(&[committed(10, &[], &[(1, 1)]), b.clone()]), ABORT);
    assert_eq!(asked(&[a, prepared_b.clone()]), ABORT);
    assert_eq!(asked(&[b.clone(), prepared_a.clone()]), retry(40));
    assert_eq!(asked(&[b, prepared_b.clone()]), retry(60));
    assert_eq!(asked(&[prepared_a]), ABSTAIN);
    assert_eq!(asked(&[prepared_b]), ABSTAIN);
}

/// "For messages 1 only": message 3 adds a commit under a later entry, since its OK was declared elsewhere.
#[test]
fn an_outcome_is_noted_under_a_later_entry() {
    let held = common::normal(0, 3, 0, &[writer(30)]).image();
    let mut one = TestBox::holding(&held);
    assert_eq!(one.done(&outcome(20, 1, &[(K, 0)], &[(K, 2)])).state, 1);
    assert_eq!(codes(&one.held(), 20), (0, 1, 0));
    // Then message 1 finds the outcome, and checks nothing.
    assert_eq!(one.done(&propose(20, &[(K, 0)], &[(K, 2)])).state, 1);
}

/// "The merge keeps the older A and B, because a result already declared final must not be lost when a later stamp came
/// after it." In a group of five the fast count is four.
#[test]
fn a_merge_keeps_a_fast_ok_below_a_later_committed_entry() {
    let mut boxes: Vec<TestBox> = (0..5).map(|b| TestBox::fresh(5, b)).collect();
    let (early, late) = (
        propose(10, &[], &[(K, 1)]),
        propose(20, &[(K, 10)], &[(K, 2)]),
    );
    for one in &mut boxes[..4] {
        assert_eq!(one.done(&early).state, 1);
    }
    for one in &mut boxes[1..] {
        assert_eq!(one.done(&late).state, 1);
    }
    for one in &mut boxes[2..] {
        one.done(&outcome(20, 1, &[(K, 10)], &[(K, 2)]));
    }
    boxes[4].done(&finish(20, 0, 1));
    // The box that has the later entry alone would not take the earlier one any more.
    assert_eq!(boxes[4].clone().done(&early).state, 4);
    let tables: Vec<Vec<u8>> = [0, 1, 4]
        .iter()
        .map(|place| {
            boxes[*place].done(&change(1));
            boxes[*place].image().to_vec()
        })
        .collect();
    let table = common::merge(&tables, 1).expect("a merge");
    assert_eq!(codes(&table, 10), (5, 0, 0));
    assert_eq!(codes(&table, 20), (5, 3, 0));
}
