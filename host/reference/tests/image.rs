//! Images: what is one, and what is none.

mod common;
use common::{normal, retry_row, row, RawTable, TestBox, BUFFER, DIRT, GREATEST_STAMP};
use reference::Table;

/// Two rows; the first body starts at 72 and has two reads and two writes, the second starts at 108.
fn two_rows() -> Vec<u8> {
    let first = row(10, &[(1, 0), (2, 9)], &[(3, 7), (63, u64::MAX)], 1, 0);
    normal(1, 3, 4, &[first, retry_row(20, &[(0, 0)], 8, 30)]).image()
}

fn with(place: usize, bytes: &[u8]) -> Vec<u8> {
    let mut image = two_rows();
    image[place..place + bytes.len()].copy_from_slice(bytes);
    image
}

/// That a buffer beginning so is a bad table for a message that breaks no rule.
fn assert_no_image(what: &str, image: &[u8]) {
    assert_eq!(Table::parse(image), None, "{}", what);
    let number = TestBox::holding(image).number(&common::read(1, 0));
    assert_eq!(number, 2, "{}", what);
}

fn assert_image(table: &RawTable) {
    let image = table.image();
    let (parsed, length) = Table::parse(&image).expect("an image");
    assert_eq!(length, image.len());
    assert_eq!(parsed.image(), image);
}

#[test]
fn an_image_is_read_and_written_back_as_it_was() {
    let image = two_rows();
    let (table, length) = Table::parse(&image).expect("an image");
    assert_eq!((table.rows.len(), length), (2, 117));
    assert_eq!(table.rows[&10].body.reads[&2], 9);
    assert_eq!(table.rows[&10].body.writes[&63], u64::MAX);
    assert_eq!(common::codes(&table, 20), (8, 0, 30));
    assert_eq!(table.image(), image);
}

#[test]
fn a_header_that_breaks_a_rule_is_no_image() {
    let broken: [(&str, usize, &[u8]); 14] = [
        ("format 0", 0, &[0]),
        ("format 2", 0, &[2]),
        ("box outside", 1, &[3]),
        ("n 4", 2, &[4]),
        ("n 1", 2, &[1]),
        ("n 9", 2, &[9]),
        ("mode 2", 3, &[2]),
        ("rows one less", 7, &[1]),
        ("rows one more", 7, &[3]),
        ("normal with a higher promise", 15, &[5]),
        ("normal with a lower promise", 15, &[3]),
        ("changing with promise at view", 3, &[1]),
        ("start rows above rows", 19, &[3]),
        ("total length one more", 23, &[118]),
    ];
    for (what, place, bytes) in broken {
        assert_no_image(what, &with(place, bytes));
    }
    assert_no_image("total length one less", &with(23, &[116]));
    assert_no_image("rows beyond all bounds", &with(4, &[255; 4]));
    let mut promised_below = with(3, &[1]);
    promised_below[15] = 3;
    assert_no_image("changing with a promise below", &promised_below);
}

#[test]
fn a_row_that_breaks_a_rule_is_no_image() {
    let broken: [(&str, usize, &[u8]); 17] = [
        ("stamp 0", 31, &[0]),
        ("stamp above 2^48-1", 48, &[0, 1]),
        ("equal stamps", 31, &[20]),
        ("falling stamps", 31, &[21]),
        ("retry stamp for OK", 39, &[1]),
        ("no retry stamp for RETRY", 63, &[0]),
        ("retry stamp above 2^48-1", 56, &[0, 1]),
        ("offset one more", 43, &[73]),
        ("offset one less", 67, &[107]),
        ("a read less", 44, &[1]),
        ("five reads", 44, &[5]),
        ("five writes", 45, &[5]),
        ("prepare 9", 46, &[9]),
        ("prepare 255", 46, &[255]),
        ("outcome 5", 47, &[5]),
        ("outcome 255", 47, &[255]),
        ("both zero", 46, &[0, 0]),
    ];
    for (what, place, bytes) in broken {
        assert_no_image(what, &with(place, bytes));
    }
    let mut none_held = with(70, &[0, 1]);
    assert_no_image("retry stamp without a prepare", &none_held);
    none_held[63] = 0;
    assert!(Table::parse(&none_held).is_some());
}

#[test]
fn a_body_that_breaks_a_rule_is_no_image() {
    let broken: [(&str, usize, &[u8]); 7] = [
        ("register 64", 99, &[64]),
        ("equal read registers", 72, &[2]),
        ("falling read registers", 72, &[3]),
        ("equal write registers", 90, &[63]),
        ("falling write registers", 99, &[2]),
        ("version at the stamp", 89, &[10]),
        ("version above the stamp", 74, &[1]),
    ];
    for (what, place, bytes) in broken {
        assert_no_image(what, &with(place, bytes));
    }
    assert_no_image(
        "no access",
        &normal(0, 3, 0, &[row(1, &[], &[], 1, 0)]).image(),
    );
    let five: Vec<(u8, u64)> = (0..5).map(|register| (register, 0)).collect();
    assert_no_image(
        "five reads whole",
        &normal(0, 3, 0, &[row(1, &five, &[], 1, 0)]).image(),
    );
    assert_no_image(
        "five writes whole",
        &normal(0, 3, 0, &[row(1, &[], &five, 1, 0)]).image(),
    );
}

#[test]
fn an_image_cut_anywhere_is_none_and_bytes_after_it_are_free() {
    let image = two_rows();
    for length in 0..image.len() {
        assert_eq!(Table::parse(&image[..length]), None);
    }
    let longer = [image.clone(), vec![DIRT; 5]].concat();
    assert_eq!(Table::parse(&longer), Table::parse(&image));
}

#[test]
fn what_the_rules_do_not_forbid_is_an_image() {
    let writes = [(5, 0)];
    // A retry stamp below the row's own, a version that nobody wrote, the greatest stamp.
    assert_image(&normal(0, 3, 0, &[retry_row(20, &writes, 4, 3)]));
    assert_image(&normal(0, 3, 0, &[row(20, &[(5, 19)], &writes, 1, 0)]));
    assert_image(&normal(
        0,
        3,
        0,
        &[retry_row(GREATEST_STAMP, &writes, 8, GREATEST_STAMP)],
    ));
    // Start rows that are not final; prepare and outcome bytes in every combination.
    for (prepare, outcome) in (0..9).flat_map(|p| (0..5).map(move |o| (p, o))) {
        let mut raw = retry_row(20, &writes, prepare, u64::from(prepare % 4 == 0) * 30);
        if prepare == 0 {
            raw.retry = 0;
        }
        raw.outcome = outcome;
        let table = RawTable {
            start_rows: 1,
            ..normal(6, 7, 9, &[raw])
        };
        if prepare + outcome > 0 {
            assert_image(&table);
        } else {
            assert_eq!(Table::parse(&table.image()), None);
        }
    }
}

#[test]
fn full_rows_are_512_in_49176_bytes_and_one_more_is_no_image() {
    let four: Vec<(u8, u64)> = (10..14).map(|register| (register, 0)).collect();
    let rows: Vec<_> = (1..=513).map(|s| row(s, &four, &four, 1, 0)).collect();
    let image = normal(0, 3, 0, &rows[..512]).image();
    assert_eq!(image.len(), BUFFER);
    let (table, length) = Table::parse(&image).expect("an image");
    assert_eq!((table.rows.len(), length), (512, BUFFER));
    assert_eq!(table.image(), image);
    assert_eq!(Table::parse(&normal(0, 3, 0, &rows).image()), None);
}

#[test]
fn bodies_shared_or_out_of_row_order_are_no_image() {
    let rows = [writes_only(10), writes_only(20)];
    let image = normal(0, 3, 0, &rows).image();
    assert!(Table::parse(&image).is_some());
    // The last bytes of the two offsets, which are 72 and 81.
    for (first, second) in [(72, 72), (81, 81), (81, 72)] {
        let mut other = image.clone();
        other[43] = first;
        other[67] = second;
        assert_no_image("offsets out of order", &other);
    }
}

fn writes_only(stamp: u64) -> common::RawRow {
    row(stamp, &[], &[(1, 1)], 1, 0)
}

#[test]
fn a_gap_before_a_body_is_no_image() {
    let mut image = normal(0, 3, 0, &[writes_only(10)]).image();
    image.insert(48, 0);
    image[43] = 49;
    image[23] = 58;
    assert_no_image("a gap", &image);
}
