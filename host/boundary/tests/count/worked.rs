//! Counts whose answers follow from the paper by hand, apart from the second program. The words are written out: the number
//! in bits 0 to 7, the kind in 8 and 9 (1 fast, 2 slow), the result's code in 10 to 12, the retry stamp from bit 16 on.

use crate::every::{ABORT, ABSTAIN, OK};
use crate::heard::counted;
use crate::lent::Lent;
use samples::replies::laid;
use samples::{message, row_of_the_paper, Record, GREATEST_STAMP, TABLE_BYTES};

const WAIT: u64 = 0;
const FAST_OK: u64 = 0x500;
const FAST_ABORT: u64 = 0x900;
const FAST_ABSTAIN: u64 = 0xd00;
const SLOW_OK: u64 = 0x600;
const SLOW_ABORT: u64 = 0xa00;
const SLOW_ABSTAIN: u64 = 0xe00;
const BAD_MESSAGE: u64 = 3;
const CONTRADICTION: u64 = 6;

fn retry(stamp: u64) -> (u8, u64) {
    (4, stamp)
}

/// Replies of boxes 0, 1, 2 and so on in view 9, first the final ones.
fn replies(finals: &[(u8, u64)], tentative: &[(u8, u64)]) -> Vec<Record> {
    let finals = finals.iter().map(|result| (*result, 1));
    let all = finals.chain(tentative.iter().map(|result| (*result, 0)));
    let record = |(box_number, (result, is_final))| Record {
        box_number,
        view: 9,
        result,
        is_final,
    };
    (0..).zip(all).map(record).collect()
}

/// The library's answer, which is the same for the bytes of a list and for its records.
fn count_list(n: u8, records: &[Record]) -> u64 {
    let bytes = laid(records);
    let answer = boundary::count(n, &bytes);
    Lent::seeded(0).assert_counted(n, &bytes, &[], answer);
    answer
}

/// The library's answer, which is the same in every rotation of the list and backwards.
fn count(n: u8, finals: &[(u8, u64)], tentative: &[(u8, u64)]) -> u64 {
    let mut records = replies(finals, tentative);
    let answer = count_list(n, &records);
    for _ in 0..records.len() {
        records.rotate_left(1);
        assert_eq!(count_list(n, &records), answer);
    }
    records.reverse();
    assert_eq!(count_list(n, &records), answer);
    answer
}

/// The table of f: "quorum f+1" and "fast count", 2 and 3, 3 and 4, 4 and 6.
#[test]
fn m1_to_m3_the_counts_of_each_group() {
    for (n, quorum, fast) in [(3, 2, 3), (5, 3, 4), (7, 4, 6)] {
        for replies in 0..=usize::from(n) {
            let expected = match replies {
                _ if replies >= fast => FAST_OK,
                _ if replies >= quorum => SLOW_OK,
                _ => WAIT,
            };
            assert_eq!(count(n, &[], &vec![OK; replies]), expected);
        }
    }
}

#[test]
fn each_result_is_fast_if_the_fast_count_agrees_on_it() {
    assert_eq!(count(5, &[], &[ABORT; 4]), FAST_ABORT);
    assert_eq!(count(7, &[], &[ABSTAIN; 6]), FAST_ABSTAIN);
    assert_eq!(count(3, &[], &[retry(5); 3]), 0x0005_1100);
    assert_eq!(
        count(3, &[], &[retry(GREATEST_STAMP); 3]),
        0xffff_ffff_ffff_1100
    );
    assert_eq!(count(5, &[], &[OK, OK, ABORT, OK, OK]), FAST_OK);
}

/// The stamp is part of the result: unequal ones do not agree.
#[test]
fn unequal_retry_stamps_do_not_agree_and_the_greatest_is_slow() {
    let replies = [retry(5), retry(6), retry(5)];
    assert_eq!(count(3, &[], &replies), 0x0006_1200);
    let replies = [retry(7), ABSTAIN, retry(GREATEST_STAMP), OK];
    assert_eq!(count(7, &[], &replies), 0xffff_ffff_ffff_1200);
}

#[test]
fn no_replies_and_one_final_alone_wait() {
    for n in [3, 5, 7] {
        assert_eq!(count(n, &[], &[]), WAIT);
        assert_eq!(count(n, &[ABORT], &[]), WAIT);
    }
    assert_eq!(count(7, &[ABORT, ABORT], &[OK]), WAIT);
}

#[test]
fn one_abort_among_ok_is_slow_abort() {
    assert_eq!(count(3, &[], &[OK, OK, ABORT]), SLOW_ABORT);
    assert_eq!(count(7, &[], &[OK, OK, OK, OK, OK, ABORT]), SLOW_ABORT);
}

#[test]
fn one_retry_among_a_quorum_of_ok_is_slow_ok() {
    assert_eq!(count(3, &[], &[OK, OK, retry(5)]), SLOW_OK);
    assert_eq!(count(5, &[], &[OK, OK, OK, retry(5)]), SLOW_OK);
    assert_eq!(count(5, &[], &[OK, OK, retry(5)]), 0x0005_1200);
}

#[test]
fn what_is_left_is_slow_abstain() {
    assert_eq!(count(3, &[], &[OK, ABSTAIN]), SLOW_ABSTAIN);
    assert_eq!(count(7, &[], &[OK, OK, OK, ABSTAIN]), SLOW_ABSTAIN);
}

#[test]
fn a_final_result_is_slow_before_any_abort() {
    assert_eq!(count(3, &[OK], &[ABORT]), SLOW_OK);
    assert_eq!(count(5, &[ABSTAIN], &[ABORT, OK]), SLOW_ABSTAIN);
    assert_eq!(count(3, &[retry(5)], &[retry(6)]), 0x0005_1200);
}

#[test]
fn a_fast_count_equal_to_a_final_is_fast() {
    assert_eq!(count(3, &[OK], &[OK, OK]), FAST_OK);
    assert_eq!(count(7, &[ABORT, ABORT], &[ABORT; 4]), FAST_ABORT);
}

#[test]
fn a_fast_count_beside_another_final_is_a_contradiction() {
    assert_eq!(count(5, &[ABORT], &[OK; 4]), CONTRADICTION);
    assert_eq!(count(7, &[retry(5)], &[retry(6); 6]), CONTRADICTION);
    assert_eq!(count(5, &[ABORT], &[OK; 3]), SLOW_ABORT);
}

/// Before it waits, and before it looks how many there are.
#[test]
fn two_unequal_finals_are_a_contradiction() {
    assert_eq!(count(3, &[OK, ABORT], &[]), CONTRADICTION);
    assert_eq!(count(7, &[retry(5), retry(6)], &[]), CONTRADICTION);
    assert_eq!(count(7, &[OK; 2], &[ABORT, ABORT]), SLOW_OK);
}

/// "Bad n, a box outside the group or twice, unequal views or a bad result: 3", and 3 before 6.
#[test]
fn each_rule_broken_is_3_before_a_contradiction() {
    let good = replies(&[OK, ABORT], &[OK]);
    assert_eq!(count_list(3, &good), CONTRADICTION);
    let breaks: [fn(&mut Record); 8] = [
        |record| record.box_number = 3,
        |record| record.box_number = 0,
        |record| record.view = 10,
        |record| record.result = (0, 0),
        |record| record.result = (5, 0),
        |record| record.result = (1, 5),
        |record| record.result = (4, 0),
        |record| record.is_final = 2,
    ];
    for broken in breaks {
        let mut records = good.clone();
        broken(&mut records[2]);
        assert_eq!(count_list(3, &records), BAD_MESSAGE);
    }
    for n in [0, 1, 2, 4, 6, 8, 9, 255] {
        assert_eq!(count_list(n, &good), BAD_MESSAGE);
        assert_eq!(count_list(n, &[]), BAD_MESSAGE);
    }
    assert_eq!(boundary::count(3, &laid(&good)[..44]), BAD_MESSAGE);
}

/// A reply as its bytes stand, in view 0x01020304 with RETRY and a stamp of six different bytes.
#[test]
fn the_fields_are_read_at_their_places() {
    let one = [
        0, 1, 2, 3, 4, 4, 0, 0, 0xa1, 0xa2, 0xa3, 0xa4, 0xa5, 0xa6, 0,
    ];
    let mut other = one;
    (other[0], other[14]) = (1, 1);
    let both = [one, other].concat();
    assert_eq!(boundary::count(3, &both), 0xa1a2_a3a4_a5a6_1200);
}

/// The same two replies as records, written as C lays them out, their padding byte 0xee.
#[test]
fn the_fields_of_a_record_are_read_at_their_places() {
    let one: [u64; 2] = [0x0102_0304_ee00_0400, 0x0000_a1a2_a3a4_a5a6];
    let other = [one[0] | 0x1_0001, one[1]];
    let words = [one, other].concat();
    let records = boundary::records_in(&words);
    let fields = boundary::Record {
        box_number: 1,
        result: 4,
        is_final: 1,
        view: 0x0102_0304,
        retry: 0xa1a2_a3a4_a5a6,
    };
    assert_eq!(records[1], fields);
    assert_eq!(boundary::count_records(3, records), 0xa1a2_a3a4_a5a6_1200);
}

/// Boxes of 3 that get the paper's message 1: two replies are slow OK, three are fast OK. Then box 0 has it made final.
#[test]
fn replies_of_boxes_are_counted() {
    let row = row_of_the_paper(0);
    let mut tables = vec![vec![0; TABLE_BYTES]; 3];
    let mut records = Vec::new();
    for (box_number, table) in (0..).zip(&mut tables) {
        assert_eq!(boundary::fresh(table, 3, box_number), 0);
        records.push(answered(table, &message::propose_prepare(&row)));
    }
    assert_eq!(count_list(3, &records[..1]), WAIT);
    assert_eq!(count_list(3, &records[..2]), SLOW_OK);
    assert_eq!(count_list(3, &records), FAST_OK);
    let finalise = message::finalise_prepare(row.stamp, 0, ABORT);
    records[0] = answered(&mut tables[0], &finalise);
    assert_eq!(records[0], final_of_box_0(ABORT));
    assert_eq!(count_list(3, &records), SLOW_ABORT);
}

fn answered(table: &mut [u8], message: &[u8]) -> Record {
    let mut reply = [0; 24];
    assert_eq!(boundary::answer(table, message, &mut reply), 0);
    counted(&reply).expect("a reply numbered 0")
}

/// In view 0.
fn final_of_box_0(result: (u8, u64)) -> Record {
    Record {
        box_number: 0,
        view: 0,
        result,
        is_final: 1,
    }
}
