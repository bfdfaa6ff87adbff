//! The check of document 01, which document 02 leaves to the merge: the marked cases, of which most hold of messages 1 too,
//! and what "committed" and "prepared" mean.

mod common;
use common::checks::{by_both, merged, proposed, retry, ABORT, ABSTAIN, OK};
use common::{row, RawRow};

const K: u8 = 7;

/// The committed write of M4 to M6.
fn writer() -> [RawRow; 1] {
    [row(10, &[], &[(K, 1)], 5, 3)]
}

/// The committed reader of M7 to M9.
fn reader() -> [RawRow; 1] {
    [row(30, &[(K, 10)], &[], 5, 3)]
}

#[test]
fn m4_a_read_under_a_committed_write_aborts() {
    assert_eq!(by_both(&writer(), 20, &[(K, 0)], &[]), ABORT);
}

#[test]
fn m5_a_read_of_the_committed_write_is_ok() {
    assert_eq!(by_both(&writer(), 20, &[(K, 10)], &[]), OK);
}

/// "M6 and M9 become merge cases"
#[test]
fn m6_a_read_below_the_committed_write_is_ok_in_a_merge_alone() {
    assert_eq!(merged(&writer(), 8, &[(K, 0)], &[]), OK);
    assert_eq!(proposed(&writer(), 8, &[(K, 0)], &[]), ABORT);
}

#[test]
fn m7_a_write_under_a_committed_later_reader_retries_at_its_stamp() {
    assert_eq!(by_both(&reader(), 20, &[], &[(K, 1)]), retry(30));
}

/// M7 with another row beside its committed reader.
fn m7_with(other: RawRow) -> [RawRow; 2] {
    let [reader] = reader();
    let mut rows = [reader, other];
    rows.sort_by_key(|row| row.stamp);
    rows
}

fn m7_beside(other: RawRow) -> (u8, u64) {
    merged(&m7_with(other), 20, &[], &[(K, 1)])
}

/// "Case M7 gains a companion with a prepared reader at 40 that read at 10: RETRY 40." In every state that is prepared.
#[test]
fn the_companion_of_m7_retries_at_the_prepared_readers_stamp() {
    for (prepare, outcome) in [(1, 0), (1, 1), (1, 2), (5, 0), (5, 1), (5, 2)] {
        let rows = m7_with(row(40, &[(K, 10)], &[], prepare, outcome));
        let told = by_both(&rows, 20, &[], &[(K, 1)]);
        assert_eq!(told, retry(40), "{} {}", prepare, outcome);
    }
}

#[test]
fn a_reader_that_is_not_prepared_is_none_of_the_greatest() {
    for (prepare, outcome) in [(1, 4), (5, 4), (0, 4), (0, 1), (2, 0), (3, 1), (6, 0)] {
        let rows = m7_with(row(40, &[(K, 10)], &[], prepare, outcome));
        let told = by_both(&rows, 20, &[], &[(K, 1)]);
        assert_eq!(told, retry(30), "{} {}", prepare, outcome);
    }
}

/// "the same inequality": v' < s < s'.
#[test]
fn a_prepared_reader_meets_the_inequality_or_does_not_count() {
    let read_at = |version| m7_beside(row(40, &[(K, version)], &[], 1, 0));
    assert_eq!(read_at(0), retry(40));
    assert_eq!(read_at(19), retry(40));
    assert_eq!(read_at(20), retry(30));
    assert_eq!(read_at(35), retry(30));
    let below = |stamp| m7_beside(row(stamp, &[(K, 10)], &[], 1, 0));
    assert_eq!(below(25), retry(30));
    assert_eq!(below(19), retry(30));
}

#[test]
fn a_prepared_reader_of_another_register_counts_if_that_is_written_too() {
    let rows = [
        row(30, &[(K, 10)], &[], 5, 3),
        row(40, &[(K + 1, 10)], &[], 1, 0),
    ];
    assert_eq!(merged(&rows, 20, &[], &[(K, 1), (K + 1, 1)]), retry(40));
    assert_eq!(merged(&rows, 20, &[], &[(K, 1)]), retry(30));
    assert_eq!(merged(&rows, 20, &[], &[(K + 1, 1)]), ABSTAIN);
}

/// "it still fires only on a committed reader"
#[test]
fn the_companion_without_a_committed_reader_abstains() {
    let companion = row(40, &[(K, 10)], &[], 1, 0);
    assert_eq!(merged(&[companion.clone()], 20, &[], &[(K, 1)]), ABSTAIN);
    // A committed one that read too late is none either.
    let late = row(30, &[(K, 20)], &[], 5, 3);
    assert_eq!(merged(&[late, companion], 20, &[], &[(K, 1)]), ABSTAIN);
}

/// The stamp is above all readers that are met at s. Right above it may lie one that had read later than s.
#[test]
fn the_next_stamp_may_meet_a_reader_that_did_not_count() {
    let rows = [
        row(30, &[(K, 10)], &[], 5, 3),
        row(40, &[(K, 10)], &[], 1, 0),
        row(50, &[(K, 35)], &[], 1, 0),
    ];
    assert_eq!(merged(&rows, 20, &[], &[(K, 1)]), retry(40));
    assert_eq!(merged(&rows, 41, &[], &[(K, 1)]), ABSTAIN);
}

#[test]
fn m8_a_write_above_the_committed_reader_is_ok() {
    assert_eq!(by_both(&reader(), 31, &[], &[(K, 1)]), OK);
}

#[test]
fn m9_a_write_below_the_version_read_is_ok_in_a_merge_alone() {
    assert_eq!(merged(&reader(), 9, &[], &[(K, 1)]), OK);
    assert_eq!(proposed(&reader(), 9, &[], &[(K, 1)]), retry(30));
}

/// In every state that is prepared. Only a final OK without an outcome is still prepared when a merge has settled it.
#[test]
fn m10_a_read_under_a_prepared_write_abstains() {
    for (prepare, outcome) in [(1, 0), (1, 1), (1, 2), (5, 0), (5, 1), (5, 2)] {
        let writer = [row(10, &[], &[(K, 1)], prepare, outcome)];
        assert_eq!(by_both(&writer, 20, &[(K, 0)], &[]), ABSTAIN);
    }
}

#[test]
fn a_write_under_a_prepared_later_reader_abstains() {
    let reader = row(30, &[(K, 10)], &[], 5, 0);
    assert_eq!(merged(&[reader], 20, &[], &[(K, 1)]), ABSTAIN);
}

#[test]
fn the_limits_are_strict() {
    let (reader, writer) = (reader(), writer());
    assert_eq!(merged(&reader, 10, &[], &[(K, 1)]), OK);
    assert_eq!(merged(&reader, 11, &[], &[(K, 1)]), retry(30));
    assert_eq!(merged(&reader, 29, &[], &[(K, 1)]), retry(30));
    assert_eq!(merged(&writer, 11, &[(K, 9)], &[]), ABORT);
    assert_eq!(merged(&writer, 20, &[(K, 11)], &[]), OK);
}

#[test]
fn another_register_is_no_clash() {
    let both = [row(10, &[(K, 0)], &[(K, 1)], 5, 3)];
    assert_eq!(merged(&both, 20, &[(K + 1, 0)], &[]), OK);
    assert_eq!(merged(&both, 5, &[], &[(K + 1, 1)]), OK);
}

#[test]
fn a_write_over_or_under_a_write_is_ok() {
    assert_eq!(merged(&writer(), 5, &[], &[(K, 1)]), OK);
    assert_eq!(merged(&writer(), 20, &[], &[(K, 1)]), OK);
}

#[test]
fn retry_has_the_greatest_reader_committed_or_prepared_of_what_is_written() {
    let rows = [
        row(30, &[(K, 10)], &[], 5, 3),
        row(40, &[(9, 10)], &[], 0, 3),
        row(50, &[(K, 10)], &[], 1, 0),
        row(60, &[(K, 25)], &[], 5, 3),
    ];
    assert_eq!(merged(&rows, 20, &[], &[(K, 1)]), retry(50));
    assert_eq!(merged(&rows, 20, &[], &[(9, 1)]), retry(40));
    assert_eq!(merged(&rows, 20, &[], &[(K, 1), (9, 1)]), retry(50));
}

#[test]
fn abort_comes_before_retry_and_retry_before_abstain() {
    let rows = [
        row(10, &[], &[(1, 1)], 5, 3),
        row(11, &[], &[(2, 1)], 1, 0),
        row(30, &[(3, 0)], &[], 5, 3),
    ];
    assert_eq!(merged(&rows, 20, &[(1, 0), (2, 0)], &[(3, 1)]), ABORT);
    assert_eq!(merged(&rows, 20, &[(2, 0)], &[(3, 1)]), retry(30));
    assert_eq!(merged(&rows, 20, &[(2, 0)], &[(4, 1)]), ABSTAIN);
}

#[test]
fn committed_is_outcome_3_and_prepared_is_an_ok_that_is_not_done() {
    for (prepare, outcome) in (0..=8).flat_map(|p| (0..=4).map(move |o| (p, o))) {
        if prepare + outcome == 0 {
            continue;
        }
        let mut writer = row(10, &[], &[(K, 1)], prepare, outcome);
        writer.retry = if prepare == 4 || prepare == 8 { 99 } else { 0 };
        let expected = match (prepare, outcome) {
            (_, 3) => ABORT,
            (1, 0..=2) | (5, 0..=2) => ABSTAIN,
            _ => OK,
        };
        let found = by_both(&[writer], 20, &[(K, 0)], &[]);
        assert_eq!(found, expected, "{} {}", prepare, outcome);
    }
}
