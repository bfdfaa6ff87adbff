//! Merges whose numbers and rows follow from the paper by hand, apart from the second program.

use samples::{message, Access, Row, Table, MOST_ROWS, TABLE_BYTES};

const VIEW: u32 = 9;
/// The register that the transactions share.
const K: u8 = 7;
const OK: u8 = 1;
const FINAL_OK: u8 = 5;
const FINAL_ABORT: u8 = 6;
const FINAL_ABSTAIN: u8 = 7;
const FINAL_RETRY: u8 = 8;
const COMMIT_DONE: u8 = 3;

/// A table of a box that changes from a view to view 9.
fn changing(box_number: u8, n: u8, view: u32, rows: &[Row]) -> Table {
    Table {
        box_number,
        n,
        mode: 1,
        view,
        promised: VIEW,
        start_rows: 0,
        rows: rows.to_vec(),
    }
}

fn row(stamp: u64, (reads, writes): (&[Access], &[Access]), (prepare, outcome): (u8, u8)) -> Row {
    Row {
        stamp,
        retry: 0,
        reads: reads.to_vec(),
        writes: writes.to_vec(),
        prepare,
        outcome,
    }
}

/// A transaction that writes the register, and one that read it when nothing was written there.
fn writes(stamp: u64, codes: (u8, u8)) -> Row {
    let write = Access {
        register: K,
        number: 1,
    };
    row(stamp, (&[], &[write]), codes)
}

fn reads(stamp: u64, codes: (u8, u8)) -> Row {
    reads_at(0, stamp, codes)
}

/// A transaction that read the register at a version.
fn reads_at(version: u64, stamp: u64, codes: (u8, u8)) -> Row {
    let read = Access {
        register: K,
        number: version,
    };
    row(stamp, (&[read], &[]), codes)
}

/// The number of the merge for view 9, and the output.
fn merge(tables: &[Table]) -> (u8, Vec<u8>) {
    let run: Vec<u8> = tables.iter().flat_map(Table::image).collect();
    let mut out = vec![0xee; TABLE_BYTES];
    let number = boundary::merge(&run, VIEW, &mut out);
    (number, out)
}

/// That the merge is done and has these rows.
fn assert_merged(tables: &[Table], rows: &[Row]) {
    let (number, out) = merge(tables);
    assert_eq!(number, 0);
    let merged = Table {
        box_number: (VIEW % u32::from(tables[0].n)) as u8,
        n: tables[0].n,
        mode: 0,
        view: VIEW,
        promised: VIEW,
        start_rows: rows.len() as u32,
        rows: rows.to_vec(),
    };
    let image = merged.image();
    assert_eq!(out[..image.len()], image[..]);
    assert!(out[image.len()..].iter().all(|byte| *byte == 0xee));
}

/// That the merge is refused with this number and writes nothing.
fn assert_refused(tables: &[Table], expected: u8) {
    let (number, out) = merge(tables);
    assert_eq!(number, expected);
    assert!(out.iter().all(|byte| *byte == 0xee));
}

/// "M11: f 2; t1 tentative OK in two tables, clashing t2 final OK in the third, no outcomes: t1 ABSTAIN."
/// "Keeping every agreed OK unchecked lets it clash with a slow final OK."
#[test]
fn m11_an_agreed_ok_that_clashes_with_a_final_ok_abstains() {
    let t1 = [reads(20, (OK, 0))];
    let t2 = [writes(10, (FINAL_OK, 0))];
    let tables = [
        changing(0, 5, 0, &t1),
        changing(1, 5, 0, &t1),
        changing(2, 5, 0, &t2),
    ];
    let settled = [writes(10, (FINAL_OK, 0)), reads(20, (FINAL_ABSTAIN, 0))];
    assert_merged(&tables, &settled);
}

/// "Taking tables of older views into the merge brings back results a later view replaced."
#[test]
fn a_table_of_an_older_view_is_left_out() {
    let older = [writes(10, (FINAL_OK, 2)), reads(20, (FINAL_OK, 1))];
    let newer = [writes(10, (FINAL_ABORT, 3))];
    let tables = [changing(2, 3, 3, &older), changing(1, 3, 4, &newer)];
    assert_merged(&tables, &newer);
    let tables = [changing(1, 3, 4, &newer), changing(2, 3, 3, &older)];
    assert_merged(&tables, &newer);
}

/// "Counting one box twice among the f+1."
#[test]
fn a_box_does_not_count_twice() {
    let rows = [writes(10, (OK, 0))];
    let twice = [changing(1, 3, 0, &rows), changing(1, 3, 0, &rows)];
    assert_refused(&twice, 11);
    let two = [changing(1, 3, 0, &rows), changing(0, 3, 0, &rows)];
    assert_merged(&two, &[writes(10, (FINAL_OK, 0))]);
}

/// "Cutting a merge at 512 rows."
#[test]
fn a_merge_of_more_than_512_stamps_is_full_and_not_cut() {
    let rows = |first: usize, last: usize, codes| -> Vec<Row> {
        (first..=last)
            .map(|stamp| writes(stamp as u64, codes))
            .collect()
    };
    let codes = (FINAL_OK, 0);
    let tables = |last| {
        let (one, other) = (rows(1, 300, codes), rows(200, last, codes));
        [changing(0, 3, 0, &one), changing(1, 3, 0, &other)]
    };
    assert_merged(&tables(MOST_ROWS), &rows(1, MOST_ROWS, codes));
    assert_refused(&tables(MOST_ROWS + 1), 7);
}

/// Agreed rows before open ones, each in rising order; "a check sees only rows settled before it".
#[test]
fn an_open_row_is_checked_behind_an_agreed_one() {
    let (open, agreed) = ([writes(10, (OK, 0))], [reads(20, (OK, 0))]);
    let tables = [
        changing(0, 5, 0, &agreed),
        changing(1, 5, 0, &open),
        changing(2, 5, 0, &agreed),
    ];
    let settled = [writes(10, (FINAL_ABSTAIN, 0)), reads(20, (FINAL_OK, 0))];
    assert_merged(&tables, &settled);
}

/// "Case M7 gains a companion with a prepared reader at 40 that read at 10: RETRY 40." A merge checks by the same rule,
/// and "a check sees only rows settled before it".
#[test]
fn an_open_write_below_a_committed_and_a_prepared_reader_has_the_stamp_of_the_latter() {
    let committed = reads_at(10, 30, (FINAL_OK, COMMIT_DONE));
    let prepared = |code| reads_at(10, 40, (code, 0));
    let tables = |prepared: &Row| {
        let one = [writes(20, (OK, 0)), committed.clone()];
        let other = [committed.clone(), prepared.clone()];
        [changing(0, 3, 0, &one), changing(1, 3, 0, &other)]
    };
    let settled = |retry| {
        let told = Row {
            retry,
            ..writes(20, (FINAL_RETRY, 0))
        };
        [told, committed.clone(), prepared(FINAL_OK)]
    };
    assert_merged(&tables(&prepared(FINAL_OK)), &settled(40));
    // An open reader is checked behind the write, which has the lower stamp.
    assert_merged(&tables(&prepared(OK)), &settled(30));
}

/// "The merge keeps the older A and B, because a result already declared final must not be lost when a later stamp came
/// after it." A group of five has the fast count of four for 10, of which two are merged, and in the third table stands a
/// later entry that is committed. A box with that table refuses 10.
#[test]
fn a_fast_ok_is_kept_below_a_later_committed_entry() {
    let early = [writes(10, (OK, 0))];
    let late = |codes| {
        let mut late = reads_at(10, 20, codes);
        late.writes = early[0].writes.clone();
        late
    };
    let held = [late((OK, COMMIT_DONE))];
    let tables = [
        changing(0, 5, 0, &early),
        changing(1, 5, 0, &early),
        changing(4, 5, 0, &held),
    ];
    let settled = [writes(10, (FINAL_OK, 0)), late((FINAL_OK, COMMIT_DONE))];
    assert_merged(&tables, &settled);
    let mut before = tables[2].clone();
    (before.mode, before.promised) = (0, 0);
    let mut table = before.image();
    table.resize(TABLE_BYTES, 0);
    let mut reply = [0; 24];
    let asked = message::propose_prepare(&early[0]);
    assert_eq!(boundary::answer(&mut table, &asked, &mut reply), 0);
    assert_eq!((reply[3], reply[23]), (4, 20));
}

/// The order of numbers holds over all stamps: 5 of a late one comes before 6 of an early one.
#[test]
fn a_late_5_wins_over_an_early_6() {
    let read = reads(30, (OK, 0));
    // The same nine bytes as a write, which is another body.
    let mut write = read.clone();
    (write.reads, write.writes) = (write.writes, write.reads);
    let one = [writes(10, (FINAL_OK, 0)), read];
    let other = [writes(10, (FINAL_ABORT, 0)), write];
    assert_refused(&[changing(0, 3, 0, &one), changing(1, 3, 0, &other)], 5);
    let (one, other) = (&one[..1], &other[..1]);
    assert_refused(&[changing(0, 3, 0, one), changing(1, 3, 0, other)], 6);
}
