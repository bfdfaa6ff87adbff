//! "Keep room for the merge": how many new stamps a box takes in a view, and what it still does when there is room for none.
//! The numbers are worked out by hand from document 02.

mod common;
use common::{
    beginning, change, changing, finalise, finish, merge, normal, outcome, propose, read, row,
    start, RawRow, RawTable, TestBox,
};
use reference::room::share;
use reference::{Table, VALLEY};

const BAD_MESSAGE: u8 = 3;
const CHANGING: u8 = 4;
const OTHER_BODY: u8 = 5;
const CONTRADICTION: u8 = 6;
const FULL: u8 = 7;
const UNKNOWN: u8 = 8;
const OTHER_VIEW: u8 = 9;
const OLD_VIEW: u8 = 10;

/// The body of every transaction here: a write of a register that nothing is read from.
const WRITE: [(u8, u64); 1] = [(1, 1)];

/// Stamps above those of all rows that a table begins with.
const FIRST_NEW: u64 = 10_000;

/// n, the rows with which a view began, and how many more a box takes in it.
const SHARES: [(u8, u64, u64); 39] = [
    // 512, 511, 510, 412, 257, 256, 112, 12, 4, 3, 2, 1 and 0 rows are left, for two tables.
    (3, 0, 256),
    (3, 1, 255),
    (3, 2, 255),
    (3, 100, 206),
    (3, 255, 128),
    (3, 256, 128),
    (3, 400, 56),
    (3, 500, 6),
    (3, 508, 2),
    (3, 509, 1),
    (3, 510, 1),
    (3, 511, 0),
    (3, 512, 0),
    // 512, 511, 510, 509, 412, 257, 112, 12, 6, 5, 3, 2 and 0 rows are left, for three.
    (5, 0, 170),
    (5, 1, 170),
    (5, 2, 170),
    (5, 3, 169),
    (5, 100, 137),
    (5, 255, 85),
    (5, 400, 37),
    (5, 500, 4),
    (5, 506, 2),
    (5, 507, 1),
    (5, 509, 1),
    (5, 510, 0),
    (5, 512, 0),
    // 512, 511, 508, 507, 412, 257, 112, 12, 8, 7, 4, 3 and 0 rows are left, for four.
    (7, 0, 128),
    (7, 1, 127),
    (7, 4, 127),
    (7, 5, 126),
    (7, 100, 103),
    (7, 255, 64),
    (7, 400, 28),
    (7, 500, 3),
    (7, 504, 2),
    (7, 505, 1),
    (7, 508, 1),
    (7, 509, 0),
    (7, 512, 0),
];

/// Rows of the stamps 1, 2 and so on, each with these bytes.
fn rows_with(count: u64, prepare: u8, outcome: u8) -> Vec<RawRow> {
    let of = |stamp| row(stamp, &[], &WRITE, prepare, outcome);
    (1..=count).map(of).collect()
}

/// Rows as a view begins with them: aborted, so that no new stamp is refused for their sake.
fn settled(count: u64) -> Vec<RawRow> {
    rows_with(count, 6, 4)
}

/// A box of n that was told to start view 1 with so many rows.
fn started(n: u8, start_rows: u64) -> TestBox {
    let mut one = TestBox::fresh(n, 0);
    one.done(&start(1, &beginning(n, 1, &settled(start_rows)).image()));
    one
}

/// How many new stamps the box takes, one after the other, before it says that it is full: by these messages in turns.
fn taken(one: &mut TestBox, messages: &[fn(u64) -> Vec<u8>]) -> u64 {
    let mut stamps = (FIRST_NEW..).zip(messages.iter().cycle());
    let refused = stamps.find(|(stamp, message)| match one.number(&message(*stamp)) {
        0 => false,
        number => {
            assert_eq!(number, FULL);
            true
        }
    });
    refused.expect("a stamp that is refused").0 - FIRST_NEW
}

fn proposed(stamp: u64) -> Vec<u8> {
    propose(stamp, &[], &WRITE)
}

fn committed(stamp: u64) -> Vec<u8> {
    outcome(stamp, 1, &[], &WRITE)
}

fn aborted(stamp: u64) -> Vec<u8> {
    outcome(stamp, 2, &[], &WRITE)
}

fn to(table: &RawTable, message: &[u8]) -> u8 {
    TestBox::holding(&table.image()).number(message)
}

/// "From a fresh group of three that is 256; of five, 170; of seven, 128." Message 3 adds rows as message 1 does.
#[test]
fn a_fresh_box_takes_256_or_170_or_128_new_stamps() {
    let messages: [&[fn(u64) -> Vec<u8>]; 4] = [
        &[proposed],
        &[committed],
        &[aborted],
        &[proposed, committed, proposed, aborted],
    ];
    for (n, most) in [(3, 256), (5, 170), (7, 128)] {
        for some in messages {
            let mut one = TestBox::fresh(n, n - 1);
            assert_eq!(taken(&mut one, some), most, "of {}", n);
            assert_eq!(one.held().rows.len() as u64, most);
            assert_eq!(one.number(&proposed(1)), FULL);
            assert_eq!(one.number(&aborted(2)), FULL);
        }
    }
}

/// "512 less the start rows, divided by f+1 and rounded down"
#[test]
fn a_view_that_began_with_rows_has_its_share_of_the_rest() {
    for (n, start_rows, most) in SHARES {
        let mut one = started(n, start_rows);
        assert_eq!(share(VALLEY, &one.held()) as u64, most);
        let found = taken(&mut one, &[proposed, aborted]);
        assert_eq!(found, most, "of {}, began with {}", n, start_rows);
        assert_eq!(one.held().rows.len() as u64, start_rows + most);
    }
}

/// What a table takes depends on its numbers alone, and not on how it came to have them.
#[test]
fn the_last_stamp_is_taken_and_the_one_behind_it_is_refused() {
    for (n, start_rows, most) in SHARES {
        for added in most.saturating_sub(1)..=most + 1 {
            let rows = settled(start_rows + added);
            if rows.len() <= 512 {
                let mut table = normal(0, n, 1, &rows);
                table.start_rows = start_rows as u32;
                let expected = if added < most { 0 } else { FULL };
                assert_eq!(to(&table, &proposed(FIRST_NEW)), expected);
                assert_eq!(to(&table, &committed(FIRST_NEW)), expected);
            }
        }
    }
}

/// Each row that was added counts, whatever became of it.
#[test]
fn rows_count_whatever_they_hold() {
    for (prepare, outcome_byte) in [
        (1, 0),
        (2, 0),
        (3, 0),
        (5, 0),
        (0, 1),
        (0, 4),
        (5, 3),
        (6, 4),
    ] {
        let with = |count| normal(0, 5, 0, &rows_with(count, prepare, outcome_byte));
        assert_eq!(to(&with(169), &aborted(FIRST_NEW)), 0);
        assert_eq!(to(&with(170), &aborted(FIRST_NEW)), FULL);
    }
}

/// A box adds half of what is left at most, so the 512th row comes with the start of a view alone.
#[test]
fn no_message_adds_the_512th_row() {
    for n in [3, 5, 7] {
        for start_rows in 0..512 {
            let table = Table::parse(&beginning(n, 1, &[]).image());
            let mut table = table.expect("a table").0;
            table.start_rows = start_rows;
            assert!(start_rows + share(VALLEY, &table) < 512);
        }
    }
    let mut one = started(3, 510);
    assert_eq!(one.number(&proposed(FIRST_NEW)), 0);
    assert_eq!(one.number(&proposed(FIRST_NEW + 1)), FULL);
    assert_eq!(one.held().rows.len(), 511);
}

/// Rows of many kinds, more of them than the share of a box of any group, as a box may hold that filled its table before.
fn overfull(mode: u8, n: u8, rows: u64) -> RawTable {
    let mut rows = rows_with(rows, 1, 0);
    rows[1] = row(2, &[], &WRITE, 0, 2);
    rows[2] = row(3, &[], &WRITE, 5, 3);
    rows[3] = row(4, &[], &WRITE, 5, 1);
    match mode {
        0 => normal(0, n, 2, &rows),
        _ => changing(0, n, 2, 3, &rows),
    }
}

/// A table with more rows than its share is one by the rules, and it takes no new stamp.
#[test]
fn more_rows_than_the_share_are_no_bad_table() {
    for n in [3, 5, 7] {
        for rows in [257, 300, 511, 512] {
            let table = overfull(0, n, rows);
            let held = Table::parse(&table.image()).map(|(held, _)| held.rows.len());
            assert_eq!(held, Some(rows as usize));
            for message in [proposed(600), committed(600), aborted(600)] {
                assert_eq!(to(&table, &message), FULL);
            }
        }
    }
}

/// "A group with no room left still reads, finalises and changes view." Stamps that are held are served too.
#[test]
fn what_is_held_is_served_where_there_is_no_room() {
    let start_3 = start(3, &beginning(5, 3, &settled(400)).image());
    let served = [
        proposed(1),
        proposed(2),
        committed(3),
        committed(5),
        aborted(2),
        finalise(1, 2, 2, 0),
        finalise(3, 2, 1, 0),
        finish(2, 2, 2),
        finish(4, 2, 1),
        change(3),
        start_3,
        read(600, 1),
    ];
    for rows in [170, 171, 300, 512] {
        let table = overfull(0, 5, rows);
        for message in &served {
            assert_eq!(to(&table, message), 0, "{:?}", message);
        }
        assert_eq!(to(&table, &proposed(600)), FULL);
    }
}

/// "the order is as before": 7 is the last of all, so whatever else applies is given instead.
#[test]
fn full_comes_after_every_other_number() {
    let (held, changing) = (overfull(0, 3, 256), overfull(1, 3, 256));
    assert_eq!(to(&held, &proposed(600)), FULL);
    assert_eq!(to(&held, &propose(600, &[], &[])), BAD_MESSAGE);
    assert_eq!(to(&held, &outcome(600, 3, &[], &WRITE)), BAD_MESSAGE);
    for message in [proposed(600), committed(600), aborted(600)] {
        assert_eq!(to(&changing, &message), CHANGING);
    }
    assert_eq!(to(&held, &propose(1, &[], &[(1, 2)])), OTHER_BODY);
    assert_eq!(to(&held, &outcome(2, 1, &[], &[(1, 2)])), OTHER_BODY);
    assert_eq!(to(&held, &committed(2)), CONTRADICTION);
    assert_eq!(to(&held, &aborted(3)), CONTRADICTION);
    assert_eq!(to(&held, &aborted(4)), CONTRADICTION);
    assert_eq!(to(&held, &finalise(600, 2, 1, 0)), UNKNOWN);
    assert_eq!(to(&held, &finish(600, 2, 1)), UNKNOWN);
    assert_eq!(to(&held, &finalise(600, 1, 1, 0)), OTHER_VIEW);
    assert_eq!(to(&held, &finish(600, 1, 1)), OTHER_VIEW);
    assert_eq!(to(&held, &change(2)), OLD_VIEW);
}

/// The tables of f+1 boxes that promised view 1, after each took as many new stamps as it would. Their first stamps lie
/// so far apart.
fn filled(n: u8, apart: u64) -> Vec<Vec<u8>> {
    let of = |place: u8| {
        let mut one = TestBox::fresh(n, place);
        let first = 1 + u64::from(place) * apart;
        let mut stamps = first..;
        assert!(stamps.any(|stamp| one.number(&proposed(stamp)) == FULL));
        one.done(&change(1));
        one.image().to_vec()
    };
    (0..=n / 2).map(of).collect()
}

/// "In a dry week two boxes took different entries, and the view change was refused as full." Now all of them fit.
#[test]
fn a_merge_of_boxes_that_took_different_entries_is_not_full() {
    for (n, merged_rows) in [(3, 512), (5, 510), (7, 512)] {
        let merged = merge(&filled(n, 1_000), 1).expect("a merge");
        assert_eq!(merged.rows.len(), merged_rows);
        let mut one = TestBox::fresh(n, n - 1);
        one.done(&start(1, &merged.image()));
        // No room is left in the view that begins with them.
        assert_eq!(one.number(&proposed(FIRST_NEW)), FULL);
        assert_eq!(one.number(&committed(FIRST_NEW)), FULL);
        assert_eq!(one.number(&proposed(1)), 0);
        assert_eq!(one.number(&read(FIRST_NEW, 1)), 0);
        assert_eq!(one.number(&committed(1)), 0);
        assert_eq!(one.number(&finish(1, 1, 1)), 0);
        assert_eq!(one.number(&change(2)), 0);
    }
}

/// Boxes that took the same entries have fewer of them together, and the next view has room for more.
#[test]
fn a_view_makes_room_again() {
    // 256 of 512 rows, 342 of 512, 384 of 512 are left.
    for (n, rows, more) in [(3, 256, 128), (5, 170, 114), (7, 128, 96)] {
        let merged = merge(&filled(n, 0), 1).expect("a merge");
        assert_eq!(merged.rows.len(), rows);
        let mut one = TestBox::fresh(n, n - 1);
        one.done(&start(1, &merged.image()));
        assert_eq!(taken(&mut one, &[aborted]), more);
    }
}

/// What has not changed: tables of more stamps than there may be rows are not merged. Boxes that keep their shares have
/// none such.
#[test]
fn a_merge_of_more_than_512_stamps_is_still_full() {
    let tables: Vec<Vec<u8>> = [(0, 1..=256), (1, 257..=513)]
        .into_iter()
        .map(|(place, stamps)| {
            let rows: Vec<RawRow> = stamps.map(|s| row(s, &[], &WRITE, 2, 0)).collect();
            changing(place, 3, 0, 1, &rows).image()
        })
        .collect();
    assert_eq!(merge(&tables, 1), Err(FULL));
}
