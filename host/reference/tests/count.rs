//! The coordinator's count.

mod common;
use common::GREATEST_STAMP;
use reference::{Counted, Counts};

const OK: (u8, u64) = (1, 0);
const ABORT: (u8, u64) = (2, 0);
const ABSTAIN: (u8, u64) = (3, 0);

const BAD: u64 = 3;
const CONTRADICTION: u64 = 6;
const WAIT: u64 = 0;

fn retry(stamp: u64) -> (u8, u64) {
    (4, stamp)
}

fn fast(result: (u8, u64)) -> u64 {
    0x100 + u64::from(result.0) * 0x400 + result.1 * 0x1_0000
}

fn slow(result: (u8, u64)) -> u64 {
    0x200 + u64::from(result.0) * 0x400 + result.1 * 0x1_0000
}

fn record(box_number: u8, view: u32, result: (u8, u64), is_final: u8) -> Vec<u8> {
    let mut bytes = vec![box_number];
    bytes.extend(view.to_be_bytes());
    bytes.push(result.0);
    bytes.extend(result.1.to_be_bytes());
    bytes.push(is_final);
    bytes
}

/// The count of replies, the first of them final, which has to be the same in every rotation and backwards.
fn counted(n: u8, finals: &[(u8, u64)], tentatives: &[(u8, u64)]) -> u64 {
    let finals = finals.iter().map(|result| (*result, 1));
    let all = finals.chain(tentatives.iter().map(|result| (*result, 0)));
    let mut records: Vec<Vec<u8>> = (0..)
        .zip(all)
        .map(|(b, (result, is_final))| record(b, 6, result, is_final))
        .collect();
    let answer = reference::count(n, &records.concat());
    for _ in 0..records.len() {
        records.rotate_left(1);
        assert_eq!(reference::count(n, &records.concat()), answer);
    }
    records.reverse();
    assert_eq!(reference::count(n, &records.concat()), answer);
    answer
}

fn counts(quorum: usize, fast: usize, agreement: usize) -> Counts {
    Counts {
        quorum,
        fast,
        agreement,
    }
}

#[test]
fn m1_the_counts_for_f_1() {
    assert_eq!(Counts::from_f(1), counts(2, 3, 2));
    assert_eq!(Counts::from_n(3), Some(counts(2, 3, 2)));
}

#[test]
fn m2_the_counts_for_f_2() {
    assert_eq!(Counts::from_f(2), counts(3, 4, 2));
    assert_eq!(Counts::from_n(5), Some(counts(3, 4, 2)));
}

#[test]
fn m3_the_counts_for_f_3() {
    assert_eq!(Counts::from_f(3), counts(4, 6, 3));
    assert_eq!(Counts::from_n(7), Some(counts(4, 6, 3)));
}

#[test]
fn a_record_is_parsed_and_written_back_as_it_was() {
    for (result, is_final) in [(OK, 0), (ABORT, 1), (ABSTAIN, 0), (retry(9), 1)] {
        let bytes = record(5, 0x0102_0304, result, is_final);
        assert_eq!(bytes.len(), 15);
        assert_eq!(Counted::parse(&bytes).unwrap().bytes(), bytes);
    }
}

#[test]
fn a_bad_n_is_3_even_without_replies() {
    for n in (0..=255).filter(|n| ![3, 5, 7].contains(n)) {
        assert_eq!(reference::count(n, &[]), BAD);
    }
}

#[test]
fn no_replies_and_fewer_than_the_quorum_wait() {
    for n in [3, 5, 7] {
        assert_eq!(counted(n, &[], &[]), WAIT);
    }
    assert_eq!(counted(3, &[], &[ABORT]), WAIT);
    assert_eq!(counted(5, &[], &[OK, OK]), WAIT);
    assert_eq!(counted(7, &[], &[OK, OK, retry(4)]), WAIT);
}

#[test]
fn one_final_reply_alone_waits() {
    assert_eq!(counted(3, &[OK], &[]), WAIT);
    assert_eq!(counted(7, &[ABORT, ABORT], &[OK]), WAIT);
}

#[test]
fn the_fast_count_of_equal_results_is_fast_and_one_fewer_is_not() {
    for (n, fast_count) in [(3, 3), (5, 4), (7, 6)] {
        for result in [OK, ABORT, ABSTAIN, retry(GREATEST_STAMP)] {
            assert_eq!(counted(n, &[], &vec![result; fast_count]), fast(result));
            assert_eq!(counted(n, &[], &vec![result; fast_count - 1]), slow(result));
        }
    }
    assert_eq!(counted(5, &[], &[OK, OK, OK, OK, ABORT]), fast(OK));
    assert_eq!(counted(5, &[], &[retry(8); 4]), 0x0008_1100);
    assert_eq!(
        counted(3, &[], &[retry(8), retry(8), retry(9)]),
        slow(retry(9))
    );
}

#[test]
fn final_and_tentative_replies_count_together() {
    assert_eq!(counted(3, &[OK], &[OK, OK]), fast(OK));
    assert_eq!(
        counted(3, &[retry(5)], &[retry(5), retry(5)]),
        fast(retry(5))
    );
    assert_eq!(counted(5, &[OK], &[OK, OK, ABORT]), slow(OK));
}

#[test]
fn the_final_result_decides_before_any_abort() {
    assert_eq!(counted(3, &[OK], &[ABORT]), slow(OK));
    assert_eq!(counted(3, &[ABSTAIN], &[ABORT, OK]), slow(ABSTAIN));
    assert_eq!(counted(3, &[retry(4)], &[retry(9)]), slow(retry(4)));
    assert_eq!(counted(3, &[OK, OK], &[ABORT]), slow(OK));
}

#[test]
fn any_abort_comes_before_a_quorum_of_ok() {
    assert_eq!(counted(3, &[], &[OK, OK, ABORT]), slow(ABORT));
    assert_eq!(counted(5, &[], &[retry(9), ABSTAIN, ABORT]), slow(ABORT));
}

#[test]
fn a_quorum_of_ok_comes_before_retry() {
    assert_eq!(counted(3, &[], &[OK, OK, retry(9)]), slow(OK));
    assert_eq!(counted(5, &[], &[OK, OK, retry(9)]), slow(retry(9)));
    assert_eq!(counted(7, &[], &[OK, OK, OK, OK, ABSTAIN]), slow(OK));
}

#[test]
fn retry_has_the_greatest_stamp_and_comes_before_abstain() {
    let replies = [retry(7), retry(GREATEST_STAMP), ABSTAIN, OK];
    assert_eq!(counted(7, &[], &replies), slow(retry(GREATEST_STAMP)));
    assert_eq!(slow(retry(GREATEST_STAMP)), 0xffff_ffff_ffff_1200);
}

#[test]
fn what_is_left_is_slow_abstain() {
    assert_eq!(counted(3, &[], &[ABSTAIN, OK]), slow(ABSTAIN));
    assert_eq!(counted(5, &[], &[ABSTAIN, OK, OK]), slow(ABSTAIN));
}

#[test]
fn two_unequal_finals_are_a_contradiction_before_waiting() {
    assert_eq!(counted(3, &[OK, ABORT], &[]), CONTRADICTION);
    assert_eq!(counted(7, &[OK, ABORT], &[]), CONTRADICTION);
    assert_eq!(counted(7, &[retry(4), retry(5)], &[]), CONTRADICTION);
}

#[test]
fn a_fast_count_for_another_result_than_the_final_one_is_a_contradiction() {
    assert_eq!(counted(5, &[ABORT], &[OK, OK, OK, OK]), CONTRADICTION);
    assert_eq!(counted(7, &[retry(4)], &[retry(5); 6]), CONTRADICTION);
    assert_eq!(counted(5, &[ABORT], &[OK, OK, OK]), slow(ABORT));
}

#[test]
fn a_box_outside_or_twice_or_another_view_is_3() {
    let good = record(0, 6, OK, 0);
    let with = |other: Vec<u8>| reference::count(3, &[good.clone(), other].concat());
    assert_eq!(with(record(1, 6, OK, 0)), slow(OK));
    assert_eq!(with(record(3, 6, OK, 0)), BAD);
    assert_eq!(with(record(255, 6, OK, 0)), BAD);
    assert_eq!(with(record(0, 6, OK, 0)), BAD);
    assert_eq!(with(record(1, 7, OK, 0)), BAD);
    let eight: Vec<u8> = (0..8).flat_map(|b| record(b, 6, OK, 0)).collect();
    assert_eq!(reference::count(7, &eight), BAD);
}

#[test]
fn a_bad_result_or_final_byte_is_3() {
    let bad = [
        ((0, 0), 0),
        ((5, 0), 0),
        ((255, 0), 1),
        ((1, 1), 0),
        ((2, 1), 0),
        ((3, 1), 0),
        (retry(0), 0),
        (retry(GREATEST_STAMP + 1), 0),
        (OK, 2),
        (OK, 255),
    ];
    for (result, is_final) in bad {
        assert_eq!(reference::count(3, &record(0, 6, result, is_final)), BAD);
    }
}

#[test]
fn a_length_that_is_no_multiple_of_15_is_3() {
    let two = [record(0, 6, OK, 0), record(1, 6, OK, 0)].concat();
    for length in 0..=30 {
        let bad = reference::count(3, &two[..length]) == BAD;
        assert_eq!(bad, length % 15 != 0, "{}", length);
    }
}

#[test]
fn a_bad_reply_comes_before_a_contradiction() {
    let unequal = [record(0, 6, OK, 1), record(1, 6, ABORT, 1)].concat();
    assert_eq!(reference::count(3, &unequal), CONTRADICTION);
    let bad = [
        record(3, 6, OK, 0),
        record(2, 7, OK, 0),
        record(1, 6, OK, 0),
        vec![0],
    ];
    for other in bad {
        assert_eq!(reference::count(3, &[unequal.clone(), other].concat()), BAD);
    }
}
