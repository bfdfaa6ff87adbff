//! The merge.

mod common;
use common::{changing, codes, normal, retry_row, row, RawRow, RawTable, BUFFER, DIRT};
use reference::{Mode, Table};

const K: u8 = 7;
const OK: u8 = 5;
const ABORT: u8 = 6;
const ABSTAIN: u8 = 7;
const RETRY: u8 = 8;

/// Every order of the items.
fn orders<T: Clone>(items: &[T]) -> Vec<Vec<T>> {
    if items.is_empty() {
        return vec![Vec::new()];
    }
    let mut found = Vec::new();
    for first in 0..items.len() {
        let mut rest = items.to_vec();
        let item = rest.remove(first);
        for mut order in orders(&rest) {
            order.insert(0, item.clone());
            found.push(order);
        }
    }
    found
}

/// The merge for view 9 of these tables, which has to be the same in every order of the run.
fn merged_tables(tables: &[RawTable]) -> Result<Table, u8> {
    let images: Vec<Vec<u8>> = tables.iter().map(RawTable::image).collect();
    let result = common::merge(&images, 9);
    for order in orders(&images) {
        assert_eq!(common::merge(&order, 9), result);
    }
    result
}

/// The merge for view 9 of changing tables of view 0, box by box.
fn merged(n: u8, tables: &[&[RawRow]]) -> Result<Table, u8> {
    let boxes = (0..n).zip(tables);
    let tables: Vec<RawTable> = boxes.map(|(b, rows)| changing(b, n, 0, 9, rows)).collect();
    merged_tables(&tables)
}

fn writes(stamp: u64, prepare: u8, outcome: u8) -> RawRow {
    row(stamp, &[], &[(K, 1)], prepare, outcome)
}

fn reads(stamp: u64, prepare: u8, outcome: u8) -> RawRow {
    row(stamp, &[(K, 0)], &[], prepare, outcome)
}

#[test]
fn m11_an_agreed_ok_that_clashes_with_a_final_ok_abstains() {
    let t1 = [reads(20, 1, 0)];
    let t2 = [writes(10, 5, 0)];
    let table = merged(5, &[&t1, &t1, &t2]).unwrap();
    assert_eq!(codes(&table, 20), (ABSTAIN, 0, 0));
    assert_eq!(codes(&table, 10), (OK, 0, 0));
    let t1 = [writes(10, 1, 0)];
    let t2 = [reads(20, 5, 0)];
    let table = merged(5, &[&t1, &t1, &t2]).unwrap();
    assert_eq!(codes(&table, 10), (ABSTAIN, 0, 0));
}

#[test]
fn the_merged_table_is_normal_in_its_view_and_all_rows_are_start_rows() {
    for (n, tables) in [(3, 2), (5, 3), (7, 4)] {
        for view in [1, 2, 9, u32::MAX] {
            let rows = [writes(10, 1, 0), reads(20, 0, 2)];
            // The last boxes of the group: box v mod n need not be among them.
            let images: Vec<Vec<u8>> = (n - tables..n)
                .map(|b| changing(b, n, 0, view, &rows).image())
                .collect();
            let table = common::merge(&images, view).unwrap();
            assert_eq!((table.mode, table.view), (Mode::Normal, view));
            assert_eq!(u32::from(table.box_number), view % u32::from(n));
            assert_eq!((table.n, table.start_rows, table.rows.len()), (n, 2, 2));
            assert_eq!(codes(&table, 10), (OK, 0, 0));
            assert_eq!(codes(&table, 20), (0, 4, 0));
        }
    }
}

#[test]
fn the_merge_of_empty_tables_is_24_bytes() {
    let mut out = vec![DIRT; BUFFER];
    let run = [changing(0, 3, 0, 4, &[]), changing(2, 3, 0, 4, &[])];
    let run: Vec<u8> = run.iter().flat_map(RawTable::image).collect();
    assert_eq!(reference::merge(&run, 4, &mut out), 0);
    let mut whole = vec![1, 1, 3, 0, 0, 0, 0, 0, 0, 0, 0, 4, 0, 0, 0, 4];
    whole.extend([0, 0, 0, 0, 0, 0, 0, 24]);
    assert_eq!(out[..24], whole[..]);
    assert!(out[24..].iter().all(|byte| *byte == DIRT));
}

#[test]
fn a_final_result_stays_over_agreed_others_and_beside_any_outcome() {
    let tentative = [writes(10, 1, 0)];
    let table = merged(5, &[&tentative, &tentative, &[writes(10, 6, 1)]]).unwrap();
    assert_eq!(codes(&table, 10), (ABORT, 3, 0));
    let table = merged(3, &[&[writes(10, 5, 0)], &[writes(10, 5, 4)]]).unwrap();
    assert_eq!(codes(&table, 10), (OK, 4, 0));
    let table = merged(3, &[&[retry_row(10, &[(K, 1)], 8, 30)], &[]]).unwrap();
    assert_eq!(codes(&table, 10), (RETRY, 0, 30));
}

#[test]
fn any_outcome_held_becomes_done_and_no_prepare_stays_none() {
    for (held, done) in [(1, 3), (3, 3), (2, 4), (4, 4)] {
        let table = merged(3, &[&[writes(10, 0, held)], &[]]).unwrap();
        assert_eq!(codes(&table, 10), (0, done, 0));
    }
    let table = merged(3, &[&[writes(10, 0, 1)], &[writes(10, 0, 3)]]).unwrap();
    assert_eq!(codes(&table, 10), (0, 3, 0));
}

#[test]
fn an_agreed_refusal_stays_also_beside_an_outcome() {
    for (prepare, settled) in [(2, ABORT), (3, ABSTAIN)] {
        let table = merged(3, &[&[writes(10, prepare, 0)], &[writes(10, prepare, 0)]]).unwrap();
        assert_eq!(codes(&table, 10), (settled, 0, 0));
        let table = merged(3, &[&[writes(10, prepare, 1)], &[writes(10, prepare, 0)]]).unwrap();
        assert_eq!(codes(&table, 10), (settled, 3, 0));
    }
}

#[test]
fn retry_is_agreed_with_equal_stamps_only() {
    let retry = |stamp| retry_row(10, &[(K, 1)], 4, stamp);
    let table = merged(3, &[&[retry(30)], &[retry(30)]]).unwrap();
    assert_eq!(codes(&table, 10), (RETRY, 0, 30));
    // Unequal ones are open, and a check that finds no clash makes them OK.
    let table = merged(3, &[&[retry(30)], &[retry(31)]]).unwrap();
    assert_eq!(codes(&table, 10), (OK, 0, 0));
}

#[test]
fn an_agreed_ok_with_an_outcome_stays_unchecked() {
    for (outcome, done) in [(1, 3), (2, 4), (3, 3), (4, 4)] {
        let t1 = reads(20, 1, 0);
        let with_outcome = reads(20, 1, outcome);
        let table = merged(5, &[&[t1], &[with_outcome], &[writes(10, 5, 0)]]).unwrap();
        assert_eq!(codes(&table, 20), (OK, done, 0));
    }
}

#[test]
fn an_open_row_with_commit_is_ok_and_with_abort_is_abort() {
    let clash = [writes(10, 5, 0)];
    for (outcome, settled) in [(1, (OK, 3, 0)), (2, (ABORT, 4, 0)), (3, (OK, 3, 0))] {
        for prepare in 1..=3 {
            let other = [reads(20, 0, outcome)];
            let table = merged(5, &[&[reads(20, prepare, 0)], &other, &clash]).unwrap();
            assert_eq!(codes(&table, 20), settled);
        }
    }
}

#[test]
fn an_open_row_without_an_outcome_is_checked_whatever_was_tentative() {
    for prepare in 1..=3 {
        let table = merged(5, &[&[writes(10, prepare, 0)], &[], &[]]).unwrap();
        assert_eq!(codes(&table, 10), (OK, 0, 0));
        let table = merged(5, &[&[reads(20, prepare, 0)], &[writes(10, 5, 0)], &[]]).unwrap();
        assert_eq!(codes(&table, 20), (ABSTAIN, 0, 0));
    }
}

#[test]
fn the_agreement_count_of_seven_boxes_is_three() {
    let refused = [writes(10, 2, 0)];
    let twice = merged(7, &[&refused, &refused, &[], &[]]).unwrap();
    assert_eq!(codes(&twice, 10), (OK, 0, 0));
    let thrice = merged(7, &[&refused, &refused, &refused, &[]]).unwrap();
    assert_eq!(codes(&thrice, 10), (ABORT, 0, 0));
}

#[test]
fn agreed_rows_are_checked_before_open_ones() {
    let open = [writes(10, 1, 0)];
    let agreed = [reads(20, 1, 0)];
    let table = merged(5, &[&agreed, &agreed, &open]).unwrap();
    assert_eq!(codes(&table, 20), (OK, 0, 0));
    assert_eq!(codes(&table, 10), (ABSTAIN, 0, 0));
}

#[test]
fn rows_of_one_turn_are_checked_in_rising_order() {
    let agreed = [writes(10, 1, 0), reads(20, 1, 0)];
    let table = merged(3, &[&agreed, &agreed]).unwrap();
    assert_eq!((codes(&table, 10).0, codes(&table, 20).0), (OK, ABSTAIN));
    let table = merged(3, &[&[reads(20, 1, 0)], &[writes(10, 2, 0)]]).unwrap();
    assert_eq!((codes(&table, 10).0, codes(&table, 20).0), (OK, ABSTAIN));
}

#[test]
fn a_check_does_not_see_rows_that_were_refused() {
    let agreed = [writes(10, 3, 0), reads(20, 1, 0)];
    let table = merged(3, &[&agreed, &agreed]).unwrap();
    assert_eq!((codes(&table, 10).0, codes(&table, 20).0), (ABSTAIN, OK));
}

#[test]
fn an_outcome_noted_anywhere_is_done_for_the_checks() {
    let reader = [reads(20, 1, 0)];
    let committed = [writes(10, 1, 1), reads(20, 1, 0)];
    let table = merged(3, &[&committed, &reader]).unwrap();
    assert_eq!(codes(&table, 20), (ABORT, 0, 0));
    let aborted = [writes(10, 5, 2), reads(20, 1, 0)];
    let table = merged(3, &[&aborted, &reader]).unwrap();
    assert_eq!(codes(&table, 20), (OK, 0, 0));
    let later_reader = [writes(15, 1, 0), reads(30, 0, 1)];
    let table = merged(3, &[&later_reader, &[writes(15, 1, 0)]]).unwrap();
    assert_eq!(codes(&table, 15), (RETRY, 0, 30));
}

/// "Case M7 gains a companion with a prepared reader at 40 that read at 10: RETRY 40." A merge checks by the same rule.
#[test]
fn the_companion_of_m7_is_told_to_an_open_row_and_to_an_agreed_one() {
    let (write, read) = (writes(20, 1, 0), [(K, 10)]);
    let committed = row(30, &read, &[], 5, 3);
    let prepared = row(40, &read, &[], 5, 0);
    let readers = [committed.clone(), prepared.clone()];
    let open = [write.clone(), committed.clone()];
    let both = [write.clone(), committed.clone(), prepared.clone()];
    let runs: [[&[RawRow]; 2]; 3] = [
        [&open, &[prepared.clone()]],
        [&both, &readers],
        [&both, &[write.clone()]],
    ];
    for tables in runs {
        let table = merged(3, &tables).unwrap();
        assert_eq!(codes(&table, 20), (RETRY, 0, 40));
        assert_eq!(codes(&table, 40), (OK, 0, 0));
    }
    let table = merged(3, &[&[write], &[prepared]]).unwrap();
    assert_eq!(codes(&table, 20), (ABSTAIN, 0, 0));
}

/// "a check sees only rows settled before it": a prepared reader whose turn is later does not count.
#[test]
fn the_retry_stamp_is_that_of_a_reader_settled_before() {
    let committed = row(30, &[(K, 10)], &[], 5, 3);
    let tentative = row(40, &[(K, 10)], &[], 1, 0);
    let write = writes(20, 1, 0);
    let all = [write.clone(), committed.clone(), tentative.clone()];
    let agreed_reader = [committed.clone(), tentative];
    let agreed_write = [write, committed];
    // In fewer tables than agree: both are open, and the write comes first.
    let table = merged(3, &[&all, &[]]).unwrap();
    assert_eq!(codes(&table, 20), (RETRY, 0, 30));
    let table = merged(3, &[&all, &agreed_write]).unwrap();
    assert_eq!(codes(&table, 20), (RETRY, 0, 30));
    let table = merged(3, &[&all, &agreed_reader]).unwrap();
    assert_eq!(codes(&table, 20), (RETRY, 0, 40));
    assert_eq!(codes(&table, 40), (OK, 0, 0));
}

#[test]
fn tables_of_an_older_view_are_not_used() {
    let old = [row(10, &[], &[(K, 2)], 6, 2), writes(11, 1, 0)];
    let new = [writes(10, 5, 3)];
    let tables = [changing(0, 3, 3, 9, &old), changing(1, 3, 4, 9, &new)];
    let table = merged_tables(&tables).unwrap();
    assert_eq!(table.rows.len(), 1);
    assert_eq!(codes(&table, 10), (OK, 3, 0));
}

#[test]
fn agreement_is_counted_in_the_used_tables() {
    let refused = [writes(10, 2, 0)];
    let tables = [
        changing(0, 5, 3, 9, &refused),
        changing(1, 5, 4, 9, &refused),
        changing(2, 5, 4, 9, &[]),
    ];
    assert_eq!(codes(&merged_tables(&tables).unwrap(), 10), (OK, 0, 0));
    let tables = [
        changing(0, 3, 3, 9, &refused),
        changing(1, 3, 4, 9, &refused),
    ];
    assert_eq!(codes(&merged_tables(&tables).unwrap(), 10), (OK, 0, 0));
}

fn rows_from(first: u64, last: u64) -> Vec<RawRow> {
    (first..=last).map(|stamp| writes(stamp, 1, 0)).collect()
}

#[test]
fn a_merge_of_512_stamps_fits_and_one_more_is_full_not_cut() {
    let table = merged(3, &[&rows_from(1, 300), &rows_from(200, 512)]).unwrap();
    assert_eq!(table.rows.len(), 512);
    assert_eq!(
        merged(3, &[&rows_from(1, 300), &rows_from(200, 513)]),
        Err(7)
    );
    // Stamps of a table that is not used do not count.
    let tables = [
        changing(0, 3, 3, 9, &rows_from(1, 300)),
        changing(1, 3, 4, 9, &rows_from(200, 600)),
    ];
    assert_eq!(merged_tables(&tables).unwrap().rows.len(), 401);
}

#[test]
fn one_stamp_with_two_bodies_is_5() {
    let other = row(10, &[], &[(K, 2)], 1, 0);
    assert_eq!(merged(3, &[&[writes(10, 1, 0)], &[other]]), Err(5));
    let split = row(10, &[(K, 1)], &[], 0, 1);
    assert_eq!(merged(3, &[&[writes(10, 1, 0)], &[split]]), Err(5));
}

#[test]
fn unequal_finals_or_opposite_outcomes_are_6() {
    assert_eq!(
        merged(3, &[&[writes(10, 5, 0)], &[writes(10, 6, 0)]]),
        Err(6)
    );
    let retry = |stamp| retry_row(10, &[(K, 1)], 8, stamp);
    assert_eq!(merged(3, &[&[retry(30)], &[retry(31)]]), Err(6));
    for (one, other) in [(1, 2), (1, 4), (3, 2), (3, 4)] {
        let tables: [&[RawRow]; 2] = [&[writes(10, 0, one)], &[writes(10, 1, other)]];
        assert_eq!(merged(3, &tables), Err(6));
    }
    assert!(merged(3, &[&[writes(10, 5, 0)], &[writes(10, 2, 0)]]).is_ok());
}

#[test]
fn a_5_at_a_late_stamp_comes_before_a_6_at_an_early_one_and_both_before_7() {
    let mut one = rows_from(1, 300);
    let mut two = rows_from(300, 513);
    one.extend([writes(600, 5, 0), writes(601, 1, 0)]);
    two.extend([writes(600, 6, 0)]);
    assert_eq!(merged(3, &[&one, &two]), Err(6));
    two.push(row(601, &[], &[(K, 9)], 1, 0));
    assert_eq!(merged(3, &[&one, &two]), Err(5));
}

#[test]
fn a_run_that_is_not_whole_images_is_a_bad_table() {
    let good = changing(0, 3, 0, 9, &[]).image();
    let other = changing(1, 3, 4, 9, &[writes(10, 1, 0)]).image();
    let mut bad = good.clone();
    bad[0] = 2;
    let runs = [
        vec![],
        vec![0],
        [good.clone(), other.clone(), vec![0]].concat(),
        [good.clone(), other[..other.len() - 1].to_vec()].concat(),
        // Bad in a table of the older view, which would not be used.
        [bad, other.clone()].concat(),
    ];
    for run in runs {
        assert_eq!(common::merge_run(&run, 9), Err(2));
    }
    assert!(common::merge_run(&[good, other].concat(), 9).is_ok());
}

#[test]
fn tables_that_are_not_f_plus_1_different_boxes_promising_the_view_are_wrong() {
    let table = |box_number| changing(box_number, 3, 0, 9, &[]);
    let wrong: Vec<Vec<RawTable>> = vec![
        vec![table(0)],
        vec![table(0), table(1), table(2)],
        vec![table(0), table(0)],
        vec![table(0), changing(1, 5, 0, 9, &[])],
        vec![table(0), changing(1, 3, 0, 8, &[])],
        vec![table(0), changing(1, 3, 0, 10, &[])],
        vec![table(0), normal(1, 3, 9, &[])],
        vec![normal(0, 3, 9, &[]), normal(1, 3, 9, &[])],
        vec![changing(0, 5, 0, 9, &[]), changing(1, 5, 0, 9, &[])],
    ];
    for tables in wrong {
        assert_eq!(merged_tables(&tables), Err(11));
    }
    assert!(merged_tables(&[table(0), table(1)]).is_ok());
}

#[test]
fn no_merge_is_for_view_0() {
    let images = [normal(0, 3, 0, &[]).image(), normal(1, 3, 0, &[]).image()];
    assert_eq!(common::merge(&images, 0), Err(11));
    let images = [
        changing(0, 3, 0, 9, &[]).image(),
        changing(1, 3, 0, 9, &[]).image(),
    ];
    assert_eq!(common::merge(&images, 0), Err(11));
}

#[test]
fn a_small_output_comes_first_then_a_bad_run_then_wrong_tables_then_bodies() {
    let one = changing(0, 3, 0, 9, &[writes(10, 5, 0)]).image();
    let other = changing(1, 3, 0, 8, &[row(10, &[], &[(K, 2)], 6, 0)]).image();
    let run = [one, other].concat();
    assert_eq!(common::merge_run(&run, 9), Err(11));
    let bad_run = [run.clone(), vec![0]].concat();
    assert_eq!(common::merge_run(&bad_run, 9), Err(2));
    let good = [changing(0, 3, 0, 9, &[]), changing(1, 3, 0, 9, &[])];
    let good: Vec<u8> = good.iter().flat_map(RawTable::image).collect();
    for run in [good, run, bad_run, vec![]] {
        let mut out = vec![DIRT; BUFFER - 1];
        assert_eq!(reference::merge(&run, 9, &mut out), 1);
        assert!(out.iter().all(|byte| *byte == DIRT));
    }
}
