//! Messages: which bytes are one.

mod common;
use common::{change, finalise, finish, outcome, propose, read, start, TestBox, GREATEST_STAMP};
use reference::Message;

fn good_messages() -> Vec<Vec<u8>> {
    let image = common::beginning(3, 1, &[common::row(4, &[], &[(0, 9)], 5, 3)]).image();
    vec![
        propose(9, &[(1, 8), (2, 0)], &[(1, u64::MAX)]),
        propose(GREATEST_STAMP, &[(63, GREATEST_STAMP - 1)], &[]),
        finalise(9, 0, 1, 0),
        finalise(9, 0, 4, GREATEST_STAMP),
        finalise(9, 0, 4, 1),
        outcome(9, 2, &[(1, 8), (2, 0)], &[(0, 1), (1, 1), (2, 1), (3, 1)]),
        finish(9, 0, 2),
        change(7),
        start(1, &image),
        read(9, 63),
    ]
}

fn assert_bad(bytes: &[u8]) {
    assert_eq!(TestBox::fresh(3, 2).number(bytes), 3, "{:?}", bytes);
}

#[test]
fn a_message_is_parsed_and_written_back_as_it_was() {
    let mut kinds = Vec::new();
    for bytes in good_messages() {
        let message = Message::parse(&bytes).expect("a message");
        assert_eq!(message.bytes(), bytes);
        assert_eq!(message.kind(), bytes[0]);
        assert_ne!(TestBox::fresh(3, 2).number(&bytes), 3);
        kinds.push(message.kind());
    }
    kinds.dedup();
    assert_eq!(kinds, [1, 2, 3, 4, 5, 6, 7]);
}

#[test]
fn a_message_cut_anywhere_or_a_byte_too_long_is_bad() {
    for bytes in good_messages() {
        for length in 0..bytes.len() {
            assert_bad(&bytes[..length]);
        }
        assert_bad(&[bytes, vec![0]].concat());
    }
}

#[test]
fn the_lengths_are_those_of_the_paper() {
    let lengths: Vec<usize> = good_messages().iter().map(Vec::len).collect();
    assert_eq!(lengths, [38, 20, 22, 22, 22, 66, 14, 5, 62, 10]);
}

#[test]
fn a_kind_outside_1_to_7_is_bad() {
    for kind in (0..=255).filter(|kind| !(1..=7).contains(kind)) {
        let mut bytes = read(9, 1);
        bytes[0] = kind;
        assert_bad(&bytes);
    }
}

#[test]
fn a_stamp_outside_its_range_is_bad() {
    for stamp in [0, GREATEST_STAMP + 1, u64::MAX] {
        assert_bad(&propose(stamp, &[], &[(1, 1)]));
        assert_bad(&finalise(stamp, 0, 1, 0));
        assert_bad(&outcome(stamp, 1, &[], &[(1, 1)]));
        assert_bad(&finish(stamp, 0, 1));
        assert_bad(&read(stamp, 1));
    }
}

#[test]
fn a_code_or_a_retry_stamp_against_the_rules_is_bad() {
    for code in [0, 3, 4, 255] {
        assert_bad(&outcome(9, code, &[], &[(1, 1)]));
        assert_bad(&finish(9, 0, code));
    }
    for (result, retry) in [(0, 0), (5, 0), (8, 30), (255, 0)] {
        assert_bad(&finalise(9, 0, result, retry));
    }
    for (result, retry) in [(1, 30), (2, 30), (3, 30), (4, 0), (4, GREATEST_STAMP + 1)] {
        assert_bad(&finalise(9, 0, result, retry));
    }
}

#[test]
fn a_body_or_a_register_against_the_rules_is_bad() {
    assert_bad(&read(9, 64));
    let five = [(0, 0), (1, 0), (2, 0), (3, 0), (4, 0)];
    let bad: [(common::Accesses, common::Accesses); 9] = [
        (&[], &[]),
        (&[(64, 0)], &[]),
        (&[], &[(64, 0)]),
        (&[(1, 9)], &[]),
        (&[(1, 0), (1, 0)], &[]),
        (&[(2, 0), (1, 0)], &[]),
        (&[], &[(1, 0), (1, 0)]),
        (&five, &[]),
        (&[], &five),
    ];
    for (reads, writes) in bad {
        assert_bad(&propose(9, reads, writes));
        assert_bad(&outcome(9, 1, reads, writes));
    }
}
