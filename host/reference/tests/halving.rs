//! The rows that the search for a stamp compares: worked by hand, at most so many of so many, and what an answer says
//! of them.

mod common;
use common::{
    beginning, change, changing, finalise, finish, normal, outcome, propose, read, row, start,
    RawRow, RawTable, BUFFER, DIRT,
};
use reference::answer::{answer_for, answered_for};
use reference::halving::compared;
use reference::{Answered, Model, Number, VALLEY};

/// Ten times each place, so that every stamp and every gap between two can be asked for.
fn stamps(rows: u64) -> Vec<u64> {
    (1..=rows).map(|place| 10 * place).collect()
}

/// What is compared for each of so many stamps, and for each gap: below the first, between neighbours, above the last.
fn counts(rows: u64) -> (Vec<usize>, Vec<usize>) {
    let all = stamps(rows);
    let gaps = (0..=rows).map(|place| compared(&all, 10 * place + 5));
    let held = all.iter().map(|stamp| compared(&all, *stamp));
    (held.collect(), gaps.collect())
}

/// The searches of short lists, followed with a pencil. Of two rows the second has one before it, which is half of two,
/// so it is compared first; of five it is the third, and of the two before it again the second.
#[test]
fn short_lists_are_compared_as_by_hand() {
    assert_eq!(counts(0), (vec![], vec![0]));
    assert_eq!(counts(1), (vec![1], vec![1, 1]));
    assert_eq!(counts(2), (vec![2, 1], vec![2, 2, 1]));
    assert_eq!(counts(3), (vec![2, 1, 2], vec![2, 2, 2, 2]));
    assert_eq!(counts(4), (vec![3, 2, 1, 2], vec![3, 3, 2, 2, 2]));
    assert_eq!(counts(5), (vec![3, 2, 1, 3, 2], vec![3, 3, 2, 3, 3, 2]));
}

/// One row is found by the first comparison, two by the second, four by the third, until none is left.
#[test]
fn each_comparison_finds_twice_as_many_rows_as_the_one_before() {
    for (rows, last) in [(7, 4), (63, 32), (64, 1), (511, 256), (512, 1)] {
        let (held, _) = counts(rows);
        let found_by = |turn: usize| held.iter().filter(|count| **count == turn).count();
        let turns = held.iter().max().copied().unwrap_or(0);
        let doubling = (1..turns).map(|turn| 1 << (turn - 1));
        let expected: Vec<usize> = doubling.chain([last]).collect();
        let found: Vec<usize> = (1..=turns).map(found_by).collect();
        assert_eq!(found, expected, "{} rows", rows);
    }
}

/// "at most 10 for 512 rows; an empty table gives 0"
#[test]
fn no_more_than_10_of_512_rows_are_compared_and_10_are() {
    for (rows, most) in [(0, 0), (1, 1), (63, 6), (64, 7), (511, 9), (512, 10)] {
        let (held, gaps) = counts(rows);
        assert_eq!(held.iter().chain(&gaps).max(), Some(&most), "{}", rows);
    }
    for rows in 0..=512 {
        let (held, gaps) = counts(rows);
        let least_power = (0..).find(|power| 1 << power > rows).expect("a power");
        let mut all = held.iter().chain(&gaps);
        assert!(all.all(|count| *count <= least_power), "{} rows", rows);
    }
}

/// So many rows that write register 1 and have an outcome noted: commit.
fn rows(count: u64) -> Vec<RawRow> {
    let held = stamps(count);
    held.iter()
        .map(|stamp| row(*stamp, &[], &[(1, 1)], 5, 1))
        .collect()
}

/// The number of an answer and the rows that it compared, as its word has them.
fn answered(table: &RawTable, message: &[u8]) -> (u8, u64) {
    let mut buffer = table.image();
    buffer.resize(BUFFER, DIRT);
    let word = reference::answer_word(&mut buffer, message, &mut [DIRT; 24]);
    assert_eq!(word & 0xff00, 0);
    (word as u8, word >> 16)
}

/// Five rows in view 7. Of the stamps asked for, 10 takes three comparisons, 20 two and 30 one; 55 would stand behind
/// the last, which takes two.
#[test]
fn an_answer_says_how_many_rows_of_the_table_before_were_compared() {
    let five = normal(0, 3, 7, &rows(5));
    let body = [(1, 1)];
    let other = [(1, 2)];
    for (message, expected) in [
        (propose(10, &[], &body), (0, 3)),
        (propose(55, &[], &body), (0, 2)),
        (propose(20, &[], &other), (5, 2)),
        (finalise(20, 7, 1, 0), (0, 2)),
        (finalise(30, 7, 2, 0), (6, 1)),
        (finalise(55, 7, 1, 0), (8, 2)),
        (outcome(30, 1, &[], &body), (0, 1)),
        (outcome(55, 2, &[], &body), (0, 2)),
        (outcome(10, 1, &[], &other), (5, 3)),
        (outcome(10, 2, &[], &body), (6, 3)),
        (finish(20, 7, 1), (0, 2)),
        (finish(10, 7, 2), (6, 3)),
        (finish(55, 7, 1), (8, 2)),
    ] {
        assert_eq!(answered(&five, &message), expected, "{:?}", message);
    }
}

#[test]
fn a_full_table_is_searched_before_it_is_full_and_an_empty_one_has_no_row_to_compare() {
    let full = normal(0, 3, 0, &rows(512));
    assert_eq!(answered(&full, &propose(5, &[], &[(1, 1)])), (7, 10));
    assert_eq!(answered(&full, &propose(5_125, &[], &[(1, 1)])), (7, 9));
    assert_eq!(answered(&full, &outcome(15, 1, &[], &[(1, 1)])), (7, 10));
    assert_eq!(answered(&full, &finish(10, 0, 1)), (0, 10));
    let empty = normal(0, 3, 0, &[]);
    assert_eq!(answered(&empty, &propose(5, &[], &[(1, 1)])), (0, 0));
    assert_eq!(answered(&empty, &finalise(5, 0, 1, 0)), (8, 0));
}

/// "with 0 for refusals numbered 1 to 4 and 9"; messages 5, 6 and 7 seek no stamp.
#[test]
fn nothing_is_compared_for_other_refusals_and_for_other_messages() {
    let five = normal(0, 3, 7, &rows(5));
    let later = changing(0, 3, 7, 8, &rows(5));
    for message in [
        propose(10, &[], &[(1, 1)]),
        finalise(10, 7, 1, 0),
        outcome(10, 1, &[], &[(1, 1)]),
        finish(10, 7, 1),
    ] {
        assert_eq!(answered(&later, &message), (4, 0));
        assert_eq!(answered(&five, &message[1..]), (3, 0));
        assert_eq!(answered(&five, &[&message[..], &[0]].concat()), (3, 0));
        let mut bad = five.clone();
        bad.rows[4].stamp = 40;
        assert_eq!(answered(&bad, &message), (2, 0));
        let short = &mut five.image();
        assert_eq!(reference::answer_word(short, &message, &mut [0; 24]), 1);
    }
    assert_eq!(answered(&five, &finalise(10, 8, 1, 0)), (9, 0));
    assert_eq!(answered(&five, &finish(10, 6, 1)), (9, 0));
    assert_eq!(answered(&five, &change(8)), (0, 0));
    assert_eq!(answered(&five, &change(7)), (10, 0));
    let begun = beginning(3, 8, &[]).image();
    assert_eq!(answered(&five, &start(8, &begun)), (0, 0));
    assert_eq!(answered(&five, &start(7, &begun)), (3, 0));
    assert_eq!(answered(&five, &read(10, 1)), (0, 0));
}

/// Each model's rows are compared in its own buffer, and the number alone is that of the same answer.
#[test]
fn a_smaller_model_compares_its_own_rows() {
    let small = Model {
        rows: 64,
        buffer: 6_168,
    };
    let mut buffer = normal(0, 3, 0, &rows(64)).image();
    buffer.resize(small.buffer, DIRT);
    let message = propose(5, &[], &[(1, 1)]);
    let full = Answered {
        number: Number::Full,
        compared: 7,
    };
    let reply = &mut [0; 24];
    assert_eq!(answered_for(small, &mut buffer, &message, reply), full);
    assert_eq!(
        answer_for(small, &mut buffer, &message, reply),
        Number::Full
    );
    let unsearched = answered_for(VALLEY, &mut buffer, &message, reply);
    assert_eq!(unsearched, Answered::unsearched(Number::SmallBuffer));
}
