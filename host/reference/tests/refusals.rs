//! The numbers of a box's refusals, and which comes first. `TestBox` holds every one of them to "a refused call changes
//! nothing".

mod common;
use common::{
    beginning, change, changing, finalise, finish, normal, outcome, propose, read, retry_row, row,
    start, RawRow, RawTable, TestBox, BUFFER, DIRT,
};
use reference::numbers::{first_that_applies, Number, ORDER};
use reference::Table;

const SMALL: u8 = 1;
const BAD_TABLE: u8 = 2;
const BAD_MESSAGE: u8 = 3;
const CHANGING: u8 = 4;
const OTHER_BODY: u8 = 5;
const CONTRADICTION: u8 = 6;
const FULL: u8 = 7;
const UNKNOWN: u8 = 8;
const OTHER_VIEW: u8 = 9;
const OLD_VIEW: u8 = 10;

fn to(table: &RawTable, message: &[u8]) -> u8 {
    TestBox::holding(&table.image()).number(message)
}

fn to_rows(rows: &[RawRow], message: &[u8]) -> u8 {
    to(&normal(0, 3, 0, rows), message)
}

fn rows_up_to(last: u64) -> Vec<RawRow> {
    (1..=last)
        .map(|stamp| row(stamp, &[], &[(1, 1)], 1, 0))
        .collect()
}

#[test]
fn the_order_of_the_numbers_is_that_of_the_paper() {
    let order: Vec<u8> = ORDER.iter().map(|number| number.code()).collect();
    assert_eq!(order, [1, 2, 3, 4, 9, 10, 11, 8, 5, 6, 7]);
    assert_eq!(first_that_applies(|_| false), Number::Done);
    assert_eq!(first_that_applies(|n| n >= Number::Full), Number::OtherView);
}

#[test]
fn a_small_buffer_writes_nothing_at_all() {
    let good = TestBox::fresh(3, 0).buffer;
    let bad = vec![DIRT; BUFFER];
    for table in [good, bad] {
        for message in [read(1, 1), vec![], change(0)] {
            for (table_length, reply_length) in [(BUFFER - 1, 24), (BUFFER, 23), (0, 0)] {
                let before = table[..table_length].to_vec();
                let mut buffer = before.clone();
                let mut reply = vec![DIRT; reply_length];
                let number = reference::answer(&mut buffer, &message, &mut reply);
                assert_eq!(number, SMALL);
                assert_eq!(buffer, before);
                assert_eq!(reply, vec![DIRT; reply_length]);
            }
        }
    }
}

#[test]
fn the_least_buffers_are_enough() {
    let mut table = TestBox::fresh(3, 0).buffer[..BUFFER].to_vec();
    let mut reply = [DIRT; 24];
    assert_eq!(reference::answer(&mut table, &read(1, 1), &mut reply), 0);
    assert_eq!(reply[..3], [0, 7, 0]);
}

#[test]
fn a_bad_table_comes_before_a_bad_message() {
    let mut one = TestBox::holding(&[2]);
    assert_eq!(one.number(&[]), BAD_TABLE);
    assert_eq!(one.number(&read(0, 99)), BAD_TABLE);
    assert_eq!(one.number(&read(1, 1)), BAD_TABLE);
}

#[test]
fn a_bad_message_comes_before_changing() {
    let table = changing(0, 3, 0, 1, &[]);
    assert_eq!(to(&table, &read(0, 1)), BAD_MESSAGE);
    assert_eq!(to(&table, &[]), BAD_MESSAGE);
    assert_eq!(to(&table, &finalise(9, 5, 0, 0)), BAD_MESSAGE);
}

#[test]
fn a_changing_box_refuses_messages_1_to_4_and_7_before_anything_else_of_theirs() {
    let mut rows = rows_up_to(512);
    rows[0].outcome = 1;
    let table = changing(0, 3, 2, 3, &rows);
    let refused = [
        propose(1, &[], &[(1, 1)]),
        propose(1, &[], &[(1, 2)]),
        propose(600, &[], &[(1, 2)]),
        finalise(1, 2, 1, 0),
        finalise(600, 7, 1, 0),
        outcome(1, 2, &[], &[(1, 1)]),
        finish(1, 2, 1),
        finish(600, 7, 1),
        read(1, 1),
    ];
    for message in refused {
        assert_eq!(to(&table, &message), CHANGING, "{:?}", message);
    }
    assert_eq!(to(&table, &change(4)), 0);
    assert_eq!(to(&table, &start(3, &beginning(3, 3, &[]).image())), 0);
}

#[test]
fn another_view_comes_before_unknown_and_before_a_contradiction() {
    let table = normal(0, 3, 2, &[row(9, &[], &[(1, 1)], 5, 1)]);
    for view in [0, 1, 3] {
        assert_eq!(to(&table, &finalise(8, view, 1, 0)), OTHER_VIEW);
        assert_eq!(to(&table, &finish(8, view, 1)), OTHER_VIEW);
        assert_eq!(to(&table, &finalise(9, view, 2, 0)), OTHER_VIEW);
        assert_eq!(to(&table, &finish(9, view, 2)), OTHER_VIEW);
        assert_eq!(to(&table, &finalise(9, view, 1, 0)), OTHER_VIEW);
    }
    assert_eq!(to(&table, &finalise(9, 2, 1, 0)), 0);
}

#[test]
fn changing_to_a_view_at_or_below_the_promise_is_old() {
    for (table, promised) in [(normal(0, 3, 4, &[]), 4), (changing(0, 3, 4, 7, &[]), 7)] {
        for view in 0..=promised {
            assert_eq!(to(&table, &change(view)), OLD_VIEW);
        }
        assert_eq!(to(&table, &change(promised + 1)), 0);
    }
}

#[test]
fn starting_a_view_below_the_promise_or_at_or_below_the_view_is_old() {
    for (table, least) in [(normal(0, 3, 4, &[]), 5), (changing(0, 3, 4, 7, &[]), 7)] {
        for view in 0..10 {
            let number = to(&table, &start(view, &beginning(3, view, &[]).image()));
            let expected = if view < least { OLD_VIEW } else { 0 };
            assert_eq!(number, expected, "{}", view);
        }
    }
}

#[test]
fn view_0_with_a_good_image_of_view_0_is_old() {
    let image = beginning(3, 0, &[]).image();
    assert_eq!(TestBox::fresh(3, 1).number(&start(0, &image)), OLD_VIEW);
}

type Change = fn(&mut RawTable);

/// Changes to a start image of view 5 of 3 that leave it an image, each against one rule of message 6.
const WRONG_STARTS: [(&str, Change); 12] = [
    ("another view", |image| {
        (image.view, image.promised) = (4, 4)
    }),
    ("another box", |image| image.box_number = 1),
    ("another n", |image| (image.n, image.box_number) = (5, 0)),
    ("another n, with the box of the right one", |image| {
        image.n = 5
    }),
    ("changing", |image| (image.mode, image.promised) = (1, 6)),
    ("fewer start rows", |image| image.start_rows = 0),
    ("tentative OK", |image| image.rows[0].prepare = 1),
    ("tentative ABORT", |image| image.rows[0].prepare = 2),
    ("tentative ABSTAIN", |image| image.rows[0].prepare = 3),
    ("tentative RETRY", |image| {
        image.rows[0] = retry_row(9, &[(1, 1)], 4, 9)
    }),
    ("commit noted", |image| image.rows[0].outcome = 1),
    ("abort noted", |image| image.rows[0].outcome = 2),
];

#[test]
fn a_start_image_against_a_rule_is_a_bad_message_and_that_comes_before_an_old_view() {
    let good = beginning(3, 5, &[row(9, &[], &[(1, 1)], 5, 3)]);
    for (what, change) in WRONG_STARTS {
        let mut image = good.clone();
        change(&mut image);
        assert!(Table::parse(&image.image()).is_some(), "{}", what);
        for table in [normal(0, 3, 4, &[]), normal(0, 3, 9, &[])] {
            let number = to(&table, &start(5, &image.image()));
            assert_eq!(number, BAD_MESSAGE, "{}", what);
        }
    }
    let good = start(5, &good.image());
    assert_eq!(to(&normal(0, 3, 4, &[]), &good), 0);
    assert_eq!(to(&normal(0, 3, 9, &[]), &good), OLD_VIEW);
}

#[test]
fn a_start_image_may_hold_every_final_and_done_byte() {
    let write = [(1, 1)];
    for prepare in [0, 5, 6, 7] {
        for outcome in [0, 3, 4] {
            if prepare + outcome > 0 {
                let image = beginning(3, 5, &[row(9, &[], &write, prepare, outcome)]).image();
                assert_eq!(TestBox::fresh(3, 0).number(&start(5, &image)), 0);
            }
        }
    }
    let retry = beginning(3, 5, &[retry_row(9, &write, 8, 4)]).image();
    assert_eq!(TestBox::fresh(3, 0).number(&start(5, &retry)), 0);
}

#[test]
fn a_malformed_start_image_or_bytes_behind_it_are_a_bad_message_never_a_bad_table() {
    let good = beginning(3, 5, &[]).image();
    let mut format_2 = good.clone();
    format_2[0] = 2;
    assert_eq!(
        TestBox::fresh(3, 0).number(&start(5, &format_2)),
        BAD_MESSAGE
    );
    let longer = [good.clone(), vec![0]].concat();
    assert_eq!(TestBox::fresh(3, 0).number(&start(5, &longer)), BAD_MESSAGE);
    let twice = [good.clone(), good].concat();
    assert_eq!(TestBox::fresh(3, 0).number(&start(5, &twice)), BAD_MESSAGE);
    assert_eq!(TestBox::fresh(3, 0).number(&start(5, &[])), BAD_MESSAGE);
}

#[test]
fn finalising_what_is_not_held_is_unknown() {
    let write = [(1, 1)];
    let only_outcome = [row(9, &[], &write, 0, 1)];
    let only_prepare = [row(9, &[], &write, 1, 0)];
    assert_eq!(to_rows(&[], &finalise(9, 0, 1, 0)), UNKNOWN);
    assert_eq!(to_rows(&only_outcome, &finalise(9, 0, 1, 0)), UNKNOWN);
    assert_eq!(to_rows(&only_prepare, &finalise(8, 0, 1, 0)), UNKNOWN);
    assert_eq!(to_rows(&[], &finish(9, 0, 1)), UNKNOWN);
    assert_eq!(to_rows(&only_prepare, &finish(9, 0, 1)), UNKNOWN);
    assert_eq!(to_rows(&only_outcome, &finish(8, 0, 1)), UNKNOWN);
}

#[test]
fn another_body_is_refused_whatever_part_is_held() {
    let held = [(1, 5)];
    let others: [(common::Accesses, common::Accesses); 4] = [
        (&[], &[(1, 6)]),
        (&[], &[(2, 5)]),
        (&[], &[(1, 5), (2, 5)]),
        // The same bytes, split otherwise into reads and writes.
        (&[(1, 5)], &[]),
    ];
    for (prepare, outcome_byte) in [(1, 0), (6, 0), (0, 1), (0, 4), (5, 3)] {
        let rows = [row(9, &[], &held, prepare, outcome_byte)];
        for (reads, writes) in others {
            assert_eq!(to_rows(&rows, &propose(9, reads, writes)), OTHER_BODY);
            for code in [1, 2] {
                // Also where the outcome is the opposite of the one held: 5 before 6.
                let number = to_rows(&rows, &outcome(9, code, reads, writes));
                assert_eq!(number, OTHER_BODY);
            }
        }
    }
}

#[test]
fn an_unequal_final_is_a_contradiction() {
    let write = [(1, 1)];
    let ok = [row(9, &[], &write, 5, 0)];
    assert_eq!(to_rows(&ok, &finalise(9, 0, 1, 0)), 0);
    for (result, retry) in [(2, 0), (3, 0), (4, 1)] {
        assert_eq!(to_rows(&ok, &finalise(9, 0, result, retry)), CONTRADICTION);
    }
    let retry = [retry_row(9, &write, 8, 30)];
    assert_eq!(to_rows(&retry, &finalise(9, 0, 4, 30)), 0);
    assert_eq!(to_rows(&retry, &finalise(9, 0, 4, 31)), CONTRADICTION);
}

#[test]
fn an_opposite_outcome_is_a_contradiction_noted_or_done() {
    let write = [(1, 1)];
    for held in 1..=4 {
        let rows = [row(9, &[], &write, 0, held)];
        let same = 2 - held % 2;
        for code in [1, 2] {
            let expected = if code == same { 0 } else { CONTRADICTION };
            assert_eq!(to_rows(&rows, &outcome(9, code, &[], &write)), expected);
            assert_eq!(to_rows(&rows, &finish(9, 0, code)), expected);
        }
    }
}

#[test]
fn a_full_table_refuses_new_stamps_only() {
    let mut rows = rows_up_to(512);
    rows[1] = row(2, &[], &[(1, 1)], 0, 2);
    let table = normal(0, 3, 0, &rows);
    assert_eq!(to(&table, &propose(600, &[], &[(1, 1)])), FULL);
    assert_eq!(to(&table, &outcome(600, 1, &[], &[(1, 1)])), FULL);
    // 5 and 6 come before 7 by being about held stamps; held stamps are served.
    assert_eq!(to(&table, &propose(1, &[], &[(1, 2)])), OTHER_BODY);
    assert_eq!(to(&table, &outcome(2, 1, &[], &[(1, 1)])), CONTRADICTION);
    assert_eq!(to(&table, &finalise(600, 0, 1, 0)), UNKNOWN);
    let served = [
        propose(1, &[], &[(1, 1)]),
        propose(2, &[], &[(1, 1)]),
        finalise(3, 0, 2, 0),
        outcome(4, 1, &[], &[(1, 1)]),
        finish(2, 0, 2),
        read(600, 1),
        change(1),
    ];
    for message in served {
        assert_eq!(to(&table, &message), 0, "{:?}", message);
    }
}

/// "From a fresh group of three that is 256": the 512th row is never added by a message.
#[test]
fn the_last_row_is_added_to_a_table_of_255() {
    let mut one = TestBox::holding(&normal(0, 3, 0, &rows_up_to(255)).image());
    assert_eq!(one.number(&propose(600, &[], &[(2, 1)])), 0);
    assert_eq!(one.number(&propose(601, &[], &[(2, 1)])), FULL);
    assert_eq!(one.held().rows.len(), 256);
    let mut one = TestBox::holding(&normal(0, 3, 0, &rows_up_to(511)).image());
    assert_eq!(one.number(&propose(600, &[], &[(2, 1)])), FULL);
}
