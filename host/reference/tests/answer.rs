//! A box's answers to the seven messages, when they are done.

mod common;
use common::{
    beginning, change, changing, codes, finalise, finish, normal, outcome, propose, read,
    retry_row, row, start, Heard, TestBox,
};
use reference::Mode;

fn heard(kind: u8, state: u8, stamp: u64, value: u64) -> Heard {
    Heard {
        number: 0,
        kind,
        box_number: 0,
        state,
        view: 0,
        stamp,
        value,
    }
}

#[test]
fn the_worked_message_gives_the_worked_image_and_its_reply() {
    let mut one = TestBox::fresh(3, 0);
    let mut message = vec![1, 0, 0, 0, 0, 0, 1, 0, 1, 0, 1];
    let body = [5, 0, 0, 0, 0, 0, 0, 0, 7];
    message.extend(body);
    let reply = one.reply(&message);
    let mut whole = vec![1, 0, 3, 0, 0, 0, 0, 1];
    whole.extend([0; 12]);
    whole.extend([0, 0, 0, 57]);
    whole.extend([0, 0, 0, 0, 0, 1, 0, 1]);
    whole.extend([0; 8]);
    whole.extend([0, 0, 0, 48, 0, 1, 1, 0]);
    whole.extend(body);
    assert_eq!(one.buffer[..57], whole[..]);
    let mut answer = vec![0, 1, 0, 1, 0, 0, 0, 0, 0, 0, 0, 0, 0, 1, 0, 1];
    answer.extend([0; 8]);
    assert_eq!(reply, answer);
}

#[test]
fn a_new_row_is_put_in_stamp_order_and_the_start_rows_stay() {
    let mut one = TestBox::holding(&beginning(3, 3, &[row(20, &[], &[(1, 1)], 5, 3)]).image());
    one.done(&propose(10, &[], &[(2, 2), (3, 3)]));
    one.done(&outcome(30, 2, &[(9, 0)], &[]));
    let mut expected = beginning(
        3,
        3,
        &[
            row(10, &[], &[(2, 2), (3, 3)], 1, 0),
            row(20, &[], &[(1, 1)], 5, 3),
            row(30, &[(9, 0)], &[], 0, 2),
        ],
    );
    expected.start_rows = 1;
    assert_eq!(one.image(), expected.image());
}

#[test]
fn a_held_prepare_is_answered_as_it_is_whatever_the_outcome() {
    let writes = [(1, 1)];
    for (prepare, outcome) in (1..=8).flat_map(|p| (0..=4).map(move |o| (p, o))) {
        let retry = if prepare % 4 == 0 { 77 } else { 0 };
        let mut held = retry_row(20, &writes, prepare, retry);
        held.outcome = outcome;
        // A committed later reader, which a new check would find.
        let rows = [held, row(30, &[(1, 0)], &[], 5, 3)];
        let mut one = TestBox::holding(&normal(0, 3, 0, &rows).image());
        let before = one.buffer.clone();
        let reply = one.send(&propose(20, &[], &writes));
        assert_eq!(reply, heard(1, prepare, 20, retry));
        assert_eq!(one.buffer, before);
    }
}

#[test]
fn where_only_an_outcome_is_held_the_prepare_is_stored_without_a_check() {
    for (outcome, prepare) in [(1, 1), (3, 1), (2, 2), (4, 2)] {
        let rows = [
            row(20, &[], &[(1, 1)], 0, outcome),
            row(30, &[(1, 0)], &[], 5, 3),
        ];
        let mut one = TestBox::holding(&normal(0, 3, 0, &rows).image());
        let reply = one.send(&propose(20, &[], &[(1, 1)]));
        assert_eq!(reply, heard(1, prepare, 20, 0));
        assert_eq!(codes(&one.held(), 20), (prepare, outcome, 0));
        assert_eq!(one.held().rows.len(), 2);
    }
}

#[test]
fn a_check_with_retry_is_stored_and_answered_with_its_stamp() {
    let mut one = TestBox::holding(&normal(0, 3, 0, &[row(30, &[(1, 0)], &[], 5, 3)]).image());
    assert_eq!(one.send(&propose(20, &[], &[(1, 1)])), heard(1, 4, 20, 30));
    assert_eq!(codes(&one.held(), 20), (4, 0, 30));
}

#[test]
fn finalising_overwrites_a_tentative_result_and_its_retry_stamp() {
    for (result, retry) in [(1, 0), (2, 0), (3, 0), (4, 41)] {
        let mut one =
            TestBox::holding(&normal(0, 3, 0, &[retry_row(20, &[(1, 1)], 4, 40)]).image());
        let reply = one.send(&finalise(20, 0, result, retry));
        assert_eq!(reply, heard(2, result + 4, 20, retry));
        assert_eq!(codes(&one.held(), 20), (result + 4, 0, retry));
        // "an equal final one stays"
        let before = one.buffer.clone();
        let reply = one.send(&finalise(20, 0, result, retry));
        assert_eq!(reply, heard(2, result + 4, 20, retry));
        assert_eq!(one.buffer, before);
    }
}

#[test]
fn a_refusal_finalised_beside_a_held_commit_is_no_contradiction() {
    for outcome in 1..=4 {
        for result in 1..=3 {
            let rows = [row(20, &[], &[(1, 1)], 1, outcome)];
            let mut one = TestBox::holding(&normal(0, 3, 0, &rows).image());
            assert_eq!(one.number(&finalise(20, 0, result, 0)), 0);
            assert_eq!(codes(&one.held(), 20), (result + 4, outcome, 0));
        }
    }
}

#[test]
fn an_outcome_is_noted_then_done_and_an_equal_one_stays() {
    for code in [1, 2] {
        let mut one = TestBox::fresh(3, 0);
        let noting = outcome(20, code, &[(1, 0)], &[]);
        assert_eq!(one.send(&noting), heard(3, code, 20, 0));
        assert_eq!(codes(&one.held(), 20), (0, code, 0));
        assert_eq!(one.send(&noting), heard(3, code, 20, 0));
        assert_eq!(one.send(&finish(20, 0, code)), heard(4, code + 2, 20, 0));
        assert_eq!(codes(&one.held(), 20), (0, code + 2, 0));
        assert_eq!(one.send(&noting), heard(3, code + 2, 20, 0));
        assert_eq!(one.send(&finish(20, 0, code)), heard(4, code + 2, 20, 0));
        assert_eq!(codes(&one.held(), 20), (0, code + 2, 0));
    }
}

#[test]
fn an_outcome_beside_a_retry_keeps_the_prepare_and_answers_no_value() {
    let mut one = TestBox::holding(&normal(0, 3, 0, &[retry_row(20, &[(1, 1)], 4, 40)]).image());
    assert_eq!(
        one.send(&outcome(20, 1, &[], &[(1, 1)])),
        heard(3, 1, 20, 0)
    );
    assert_eq!(codes(&one.held(), 20), (4, 1, 40));
}

#[test]
fn a_view_change_is_promised_and_the_promise_can_rise() {
    let mut one = TestBox::holding(&normal(2, 5, 4, &[row(9, &[], &[(1, 1)], 1, 0)]).image());
    for view in [5, 9, u32::MAX] {
        let reply = one.done(&change(view));
        assert_eq!((reply.kind, reply.box_number, reply.state), (5, 2, 0));
        assert_eq!(
            (reply.view, reply.stamp, reply.value),
            (4, u64::from(view), 0)
        );
        assert_eq!(one.held().mode, Mode::Changing { promised: view });
        assert_eq!((one.held().view, one.held().rows.len()), (4, 1));
    }
}

#[test]
fn a_view_is_started_by_a_normal_and_by_a_changing_box() {
    let image = beginning(
        3,
        5,
        &[row(7, &[], &[(1, 1)], 5, 0), row(8, &[(1, 7)], &[], 0, 4)],
    );
    // The last table holds stamp 7 with another body, another final and an outcome: it is replaced all the same.
    let other = row(7, &[], &[(1, 2)], 6, 4);
    let tables = [
        normal(1, 3, 4, &[]),
        changing(1, 3, 2, 5, &[]),
        normal(1, 3, 4, &[other]),
    ];
    for table in tables {
        let mut one = TestBox::holding(&table.image());
        let reply = one.done(&start(5, &image.image()));
        assert_eq!((reply.kind, reply.box_number, reply.state), (6, 1, 0));
        assert_eq!((reply.view, reply.stamp, reply.value), (5, 0, 0));
        let mut taken = image.clone();
        taken.box_number = 1;
        assert_eq!(one.image(), taken.image());
    }
}

#[test]
fn an_image_that_shrinks_leaves_zeros_in_what_it_gave_up() {
    let rows: Vec<_> = (1..=3).map(|s| row(s, &[], &[(1, 1)], 1, 0)).collect();
    let long = changing(0, 3, 0, 1, &rows).image();
    let mut one = TestBox::holding(&long);
    one.done(&start(1, &beginning(3, 1, &[]).image()));
    assert_eq!(one.image().len(), 24);
    assert!(one.buffer[24..long.len()].iter().all(|byte| *byte == 0));
    assert!(one.buffer[long.len()..]
        .iter()
        .all(|byte| *byte == common::DIRT));
}

#[test]
fn a_read_finds_the_greatest_done_commit_at_or_below_the_stamp() {
    let rows = [
        row(10, &[], &[(1, 100), (2, 5)], 5, 3),
        row(20, &[], &[(1, 200)], 0, 3),
        row(30, &[], &[(1, 300)], 5, 1),
        row(31, &[], &[(1, 301)], 5, 4),
        row(32, &[], &[(1, 302)], 5, 0),
        row(40, &[(1, 0)], &[(2, 400)], 5, 3),
        row(50, &[], &[(1, u64::MAX)], 6, 3),
    ];
    let mut one = TestBox::holding(&normal(0, 3, 0, &rows).image());
    let before = one.buffer.clone();
    let cases = [
        (9, 1, 0, 0),
        (10, 1, 10, 100),
        (19, 1, 10, 100),
        (20, 1, 20, 200),
        (49, 1, 20, 200),
        (50, 1, 50, u64::MAX),
        (39, 2, 10, 5),
        (60, 2, 40, 400),
        (60, 3, 0, 0),
    ];
    for (stamp, register, version, value) in cases {
        let reply = one.send(&read(stamp, register));
        assert_eq!(reply, heard(7, 0, version, value), "{} {}", stamp, register);
    }
    assert_eq!(one.buffer, before);
}

#[test]
fn every_reply_names_the_box_and_its_view() {
    let mut one = TestBox::holding(&normal(4, 5, 6, &[]).image());
    let messages = [
        propose(9, &[], &[(1, 1)]),
        finalise(9, 6, 1, 0),
        outcome(9, 1, &[], &[(1, 1)]),
        finish(9, 6, 1),
        read(9, 1),
        change(7),
    ];
    for message in messages {
        let reply = one.done(&message);
        assert_eq!(
            (reply.kind, reply.box_number, reply.view),
            (message[0], 4, 6)
        );
    }
}
