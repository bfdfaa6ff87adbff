//! The room that the program tells people of: it is that of the second program, and the library refuses exactly where none is
//! left.

mod common;

use common::boxes::in_a_view;
use samples::message as make;
use samples::Row;
use sprondilu::image::Header;
use sprondilu::{calls, room};

/// Rows with which a view may begin, all of them; and for each how many were added then, up to one more than the share.
fn every_table(mut look: impl FnMut(u8, u32, u32)) {
    for n in [3, 5, 7] {
        for start_rows in 0..=512 {
            let share = (512 - start_rows) / (u32::from(n) / 2 + 1);
            for added in [0, 1, share.saturating_sub(1), share, share + 1] {
                if start_rows + added <= 512 {
                    look(n, start_rows, start_rows + added);
                }
            }
        }
    }
}

#[test]
fn share_and_room_are_those_of_the_second_program() {
    let mut without_room = 0;
    every_table(|n, start_rows, rows| {
        let image = in_a_view(n, start_rows, rows);
        let (table, _) = reference::Table::parse(&image).expect("a table");
        let header = Header::at(&image);
        let share = reference::room::share(reference::VALLEY, &table);
        assert_eq!(room::share(&header) as usize, share, "{:?}", header);
        let has_room = reference::room::has_room(reference::VALLEY, &table);
        assert_eq!(room::left(&header) > 0, has_room, "{:?}", header);
        assert_eq!(room::added(&header) + start_rows, rows);
        without_room += u32::from(!has_room);
    });
    assert!(without_room > 1_500, "{}", without_room);
}

/// "once the rows added since its view began reach 512 less the start rows, divided by f+1 and rounded down"
#[test]
fn the_library_refuses_a_new_stamp_exactly_where_no_room_is_left() {
    let row = Row {
        stamp: 5,
        ..samples::row_of_the_paper(0)
    };
    every_table(|n, start_rows, rows| {
        // Each eighth start, and those near the end, where the rule turns.
        if start_rows % 8 > 0 && start_rows < 500 {
            return;
        }
        let image = in_a_view(n, start_rows, rows);
        let left = room::left(&Header::at(&image));
        for message in [make::propose_prepare(&row), make::propose_outcome(&row, 1)] {
            let mut buffer = image.clone();
            buffer.resize(calls::TABLE_BYTES, 0);
            let (number, _) = calls::answer(&mut buffer, &message);
            assert_eq!(number, if left > 0 { 0 } else { 7 }, "{} left", left);
            if number == 0 {
                let after = room::left(&Header::at(&buffer));
                assert_eq!(after, left - 1, "n {}, {} of {}", n, rows, start_rows);
            }
        }
    });
}

/// "From a fresh group of three that is 256; of five, 170; of seven, 128."
#[test]
fn the_shares_of_fresh_groups() {
    for (n, share) in [(3, 256), (5, 170), (7, 128)] {
        let header = Header::at(&common::fresh(n, 0));
        assert_eq!((room::share(&header), room::left(&header)), (share, share));
    }
}

/// A view has room when it begins exactly if at least f+1 rows are left.
#[test]
fn a_view_that_begins_with_these_rows_has_the_room_that_is_told() {
    for n in [3, 5, 7] {
        for rows in 0..=512 {
            let held = Header::at(&in_a_view(n, 0, rows));
            let begun = Header::at(&in_a_view(n, rows, rows));
            assert_eq!(room::after_view_change(&held), room::left(&begun));
            let enough = 512 - rows > u32::from(n) / 2;
            assert_eq!(room::after_view_change(&held) > 0, enough);
        }
    }
}
