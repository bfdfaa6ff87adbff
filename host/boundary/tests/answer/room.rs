//! "Keep room for the merge": both programs about the last row that there is room for, in views that began with none, some
//! or all rows; and groups whose boxes are filled by messages, merged, and filled again.

use crate::lent::Lent;
use samples::message as make;
use samples::room::{self, GROUPS, START_ROWS};
use samples::{Access, Row, Table, GREATEST_STAMP, MOST_ROWS, TABLE_BYTES};
use std::io::{self, Write};

/// So often at least each of what is counted is met in each group.
const LEAST: u64 = 18;

/// How often both programs said what of a box: of new stamps, and of all else.
#[derive(Debug, Default)]
struct Said {
    /// With the last row that there is room for.
    taken_as_last: u64,
    refused: u64,
    /// Though the table has fewer than 512 rows.
    refused_with_rows_left: u64,
    /// In a view that began with no room.
    refused_at_once: u64,
    served: u64,
}

impl Said {
    /// A new stamp in a view with a share of so many rows, of which so many are added, in a table of so many rows.
    fn count_new(&mut self, share: usize, added: usize, rows: usize) {
        let has_room = added < share;
        self.taken_as_last += u64::from(added + 1 == share);
        self.refused += u64::from(!has_room);
        self.refused_with_rows_left += u64::from(!has_room && rows < MOST_ROWS);
        self.refused_at_once += u64::from(share == 0 && added == 0);
    }
}

/// The messages that propose: 1, and 3 with either outcome.
fn proposals(row: &Row) -> [Vec<u8>; 3] {
    [
        make::propose_prepare(row),
        make::propose_outcome(row, 1),
        make::propose_outcome(row, 2),
    ]
}

/// A new stamp is taken exactly if there is room for it; the same message again finds it held, or is refused again.
fn asked_of_a_new_stamp(lent: &mut Lent, table: &Table, new: &Row, said: &mut Said) {
    let began_with = table.start_rows as usize;
    let added = table.rows.len() - began_with;
    let share = room::share(table.n, began_with);
    let expected = if added < share { 0 } else { 7 };
    for message in proposals(new) {
        lent.hold(&table.image());
        assert_eq!(lent.ask(&message), expected, "{} of {}", added, share);
        assert_eq!(lent.ask(&message), expected, "{} of {}", added, share);
        said.count_new(share, added, table.rows.len());
    }
}

/// Messages that ask for no room: those that propose what is held, finalise, change and start a view, and read.
fn asking_for_no_room(table: &Table, row: &Row) -> Vec<Vec<u8>> {
    let (view, later) = (table.view, table.view.saturating_add(1));
    let image = make::settled(&table.image(), later);
    let register = row.writes.first().map_or(0, |write| write.register);
    let others = [
        make::finalise_prepare(row.stamp, view, (1, 0)),
        make::finalise_prepare(row.stamp, view, (4, GREATEST_STAMP)),
        make::finalise_outcome(row.stamp, view, 1),
        make::finalise_outcome(row.stamp, view, 2),
        make::change_view(later),
        make::start_view(later, &image),
        make::read(row.stamp, register),
        make::read(GREATEST_STAMP, register),
    ];
    proposals(row).into_iter().chain(others).collect()
}

fn asked_of_what_is_held(lent: &mut Lent, table: &Table, said: &mut Said) {
    let row = table.rows[lent.dice.index(table.rows.len())].clone();
    for message in asking_for_no_room(table, &row) {
        lent.hold(&table.image());
        let number = lent.ask(&message);
        assert_ne!(number, 7, "{:02x?}", &message[..5]);
        said.served += u64::from(number == 0);
    }
}

/// Tables of one group about the last row, however many rows their view began with.
fn about_the_last_row(seed: u64, n: u8) -> Said {
    let mut lent = Lent::seeded(seed);
    let mut said = Said::default();
    for start_rows in START_ROWS {
        for rows in room::edge(n, start_rows) {
            for _ in 0..3 {
                let (table, new) = room::table(&mut lent.dice, n, start_rows, rows);
                asked_of_a_new_stamp(&mut lent, &table, &new, &mut said);
                asked_of_what_is_held(&mut lent, &table, &mut said);
            }
        }
    }
    said
}

#[test]
fn about_the_last_row_both_programs_take_and_refuse_the_same() {
    let all = samples::side_by_side(&GROUPS, about_the_last_row);
    for (n, said) in GROUPS.iter().zip(&all) {
        // Written past the test harness, which would keep it to itself.
        writeln!(io::stdout(), "of {}: {:?}", n, said).expect("a place to print to");
        for times in [
            said.taken_as_last,
            said.refused,
            said.refused_with_rows_left,
            said.refused_at_once,
            said.served,
        ] {
            assert!(times >= LEAST, "of {}: {:?}", n, said);
        }
    }
}

/// A transaction that no other clashes with in a way that matters here: the stamp is what counts.
fn transaction(stamp: u64) -> Row {
    let write = Access {
        register: (stamp % 64) as u8,
        number: stamp,
    };
    Row::of(stamp, Vec::new(), vec![write])
}

/// Tells the box whose table is held of new stamps from this one on, by messages 1 and 3 in turns, until it says that it is
/// full; and how many it took.
fn fill(lent: &mut Lent, first: u64) -> u64 {
    for stamp in first.. {
        let [prepare, commit, _] = proposals(&transaction(stamp));
        match lent.ask(if stamp % 3 == 0 { &commit } else { &prepare }) {
            0 => {}
            number => {
                assert_eq!(number, 7);
                return stamp - first;
            }
        }
    }
    unreachable!("a box that is never full")
}

fn hold_fresh(lent: &mut Lent, n: u8, box_number: u8) {
    let mut table = vec![0; TABLE_BYTES];
    assert_eq!(boundary::fresh(&mut table, n, box_number), 0);
    lent.hold(&table[..24]);
}

/// The merge for view 1 by both programs, which have to agree on every byte.
fn merged(run: &[u8]) -> Vec<u8> {
    let (mut library, mut second) = (vec![0xee; TABLE_BYTES], vec![0xee; TABLE_BYTES]);
    assert_eq!(boundary::merge(run, 1, &mut library), 0);
    assert_eq!(reference::merge(run, 1, &mut second), 0);
    assert!(library == second, "merges of a full group differ");
    let length = boundary::valid(&library).expect("an image");
    library.truncate(length);
    library
}

/// f+1 boxes are filled from fresh, each from a stamp that lies so far above that of the one before it, and promise view 1.
fn run_of_full_boxes(lent: &mut Lent, n: u8, apart: u64, most: u64) -> Vec<u8> {
    let mut run = Vec::new();
    for box_number in 0..=n / 2 {
        hold_fresh(lent, n, box_number);
        let first = 1 + apart * u64::from(box_number);
        assert_eq!(fill(lent, first), most, "of {}", n);
        assert_eq!(lent.ask(&make::change_view(1)), 0);
        run.extend_from_slice(lent.image());
    }
    run
}

/// n; what a fresh box takes; how far apart the first stamps of the boxes are; the rows of their merge, and what a box takes
/// in the view that begins with those. Worked out by hand.
const FILLED: [(u8, u64, u64, u32, u64); 9] = [
    (3, 256, 0, 256, 128),
    (3, 256, 40, 296, 108),
    (3, 256, 1_000, 512, 0),
    (5, 170, 0, 170, 114),
    (5, 170, 40, 250, 87),
    (5, 170, 1_000, 510, 0),
    (7, 128, 0, 128, 96),
    (7, 128, 40, 248, 66),
    (7, 128, 1_000, 512, 0),
];

/// "In a dry week two boxes took different entries, and the view change was refused as full."
#[test]
fn a_full_group_changes_its_view_and_has_room_again_for_what_is_left() {
    let mut lent = Lent::seeded(1);
    for (n, most, apart, rows, more) in FILLED {
        let run = run_of_full_boxes(&mut lent, n, apart, most);
        let start = make::start_view(1, &merged(&run));
        hold_fresh(&mut lent, n, n - 1);
        assert_eq!(lent.ask(&start), 0);
        assert_eq!(lent.number_at(4), rows, "of {}, {} apart", n, apart);
        assert_eq!(fill(&mut lent, 100_000), more, "of {}, {} apart", n, apart);
        assert_eq!(lent.ask(&make::read(100_000, 1)), 0);
        assert_eq!(lent.ask(&make::propose_prepare(&transaction(1))), 0);
        assert_eq!(lent.ask(&make::finalise_prepare(1, 1, (1, 0))), 0);
        assert_eq!(lent.ask(&make::change_view(2)), 0);
    }
}
