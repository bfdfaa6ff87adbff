//! The row limit and the least buffer are those of the model that a call is made for.

mod common;
use common::{beginning, changing, normal, propose, row, start, RawRow};
use reference::answer::answer_for;
use reference::merge::merge_for;
use reference::table::fresh_for;
use reference::{Message, Model, Number, Table, VALLEY};

/// Two rows at most, and room for two full ones.
const SMALL: Model = Model {
    rows: 2,
    buffer: 24 + 2 * 96,
};

fn rows(count: u64) -> Vec<RawRow> {
    (1..=count)
        .map(|stamp| row(stamp, &[], &[(1, 1)], 5, 0))
        .collect()
}

fn answered(table: &mut [u8], message: &[u8]) -> Number {
    answer_for(SMALL, table, message, &mut [0; 24])
}

#[test]
fn the_valley_has_512_rows_in_49176_bytes() {
    assert_eq!((VALLEY.rows, VALLEY.buffer), (512, 49_176));
}

#[test]
fn a_smaller_model_takes_its_own_least_buffer() {
    let mut buffer = [0; 216];
    assert_eq!(
        fresh_for(SMALL, &mut buffer[1..], 3, 0),
        Number::SmallBuffer
    );
    assert_eq!(fresh_for(SMALL, &mut buffer, 3, 0), Number::Done);
    let message = propose(9, &[], &[(1, 1)]);
    assert_eq!(answered(&mut buffer[..215], &message), Number::SmallBuffer);
    assert_eq!(answered(&mut buffer, &message), Number::Done);
}

/// "Row limit, buffer size and P2's reserve read" the model's rows "for 512": of two rows, one for each table of a merge.
#[test]
fn a_smaller_model_is_full_sooner() {
    let mut buffer = [0; 216];
    assert_eq!(fresh_for(SMALL, &mut buffer, 3, 0), Number::Done);
    let first = propose(7, &[], &[(1, 1)]);
    assert_eq!(answered(&mut buffer, &first), Number::Done);
    let second = propose(8, &[], &[(1, 1)]);
    assert_eq!(answered(&mut buffer, &second), Number::Full);
    // A view that begins with that row leaves one for two tables.
    let begun = start(1, &beginning(3, 1, &rows(1)).image());
    assert_eq!(answered(&mut buffer, &begun), Number::Done);
    assert_eq!(answered(&mut buffer, &second), Number::Full);
}

/// Two of two rows are for no table of three.
#[test]
fn a_smaller_model_has_no_room_for_more_tables_than_rows() {
    let mut buffer = [0; 216];
    assert_eq!(fresh_for(SMALL, &mut buffer, 5, 0), Number::Done);
    let first = propose(7, &[], &[(1, 1)]);
    assert_eq!(answered(&mut buffer, &first), Number::Full);
}

#[test]
fn a_larger_image_is_none_of_a_smaller_model() {
    let three = normal(0, 3, 0, &rows(3)).image();
    assert!(Table::parse(&three).is_some());
    assert_eq!(Table::parse_for(SMALL, &three), None);
    let message = start(1, &beginning(3, 1, &rows(3)).image());
    assert!(Message::parse(&message).is_some());
    assert_eq!(Message::parse_for(SMALL, &message), None);
}

#[test]
fn a_smaller_model_merges_its_own_number_of_stamps() {
    let merged = |other: &[RawRow]| {
        let one = changing(0, 3, 0, 1, &rows(1)).image();
        let run = [one, changing(1, 3, 0, 1, other).image()].concat();
        merge_for(SMALL, &run, 1, &mut [0; 216])
    };
    assert_eq!(merged(&rows(2)), Number::Done);
    assert_eq!(merged(&rows(3)[1..]), Number::Full);
}
