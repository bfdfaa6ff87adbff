//! The marked cases of document 01 that are about a check and about the agreement count, and what document 02 makes of
//! them, through the compiled library: of messages 1 and of merges. The others stand in `count/worked.rs`,
//! `merge/worked.rs` and `fresh.rs`.

use samples::{message, Access, Row, Table, TABLE_BYTES};

const REGISTER: u8 = 9;
const OK: u8 = 1;
const ABORT: u8 = 2;
const ABSTAIN: u8 = 3;
const RETRY: u8 = 4;
/// What becomes of a transaction in the end, if it is told.
const COMMIT: Option<u8> = Some(1);
const ABORTED: Option<u8> = Some(2);
const PREPARED: Option<u8> = None;

fn access(register: u8, number: u64) -> Access {
    Access { register, number }
}

/// A transaction that read the register at a version, and one that writes it.
fn reader(stamp: u64, version: u64) -> Row {
    Row::of(stamp, vec![access(REGISTER, version)], Vec::new())
}

fn writer(stamp: u64) -> Row {
    Row::of(stamp, Vec::new(), vec![access(REGISTER, 7)])
}

/// What a box says to a message that it takes: the state byte and the value.
fn told(table: &mut [u8], message: &[u8]) -> (u8, u64) {
    let mut reply = [0; 24];
    assert_eq!(boundary::answer(table, message, &mut reply), 0);
    let value = reply[16..].try_into().expect("eight bytes");
    (reply[3], u64::from_be_bytes(value))
}

fn fresh() -> Vec<u8> {
    let mut table = vec![0; TABLE_BYTES];
    assert_eq!(boundary::fresh(&mut table, 3, 0), 0);
    table
}

/// What is said to a transaction after others were prepared, one after the other, and committed or aborted if so.
fn checked(earlier: &[(Row, Option<u8>)], asked: &Row) -> (u8, u64) {
    let mut table = fresh();
    for (row, outcome) in earlier {
        assert_eq!(told(&mut table, &message::propose_prepare(row)), (OK, 0));
        if let Some(outcome) = *outcome {
            let noted = told(&mut table, &message::propose_outcome(row, outcome));
            assert_eq!(noted, (outcome, 0));
            let done = message::finalise_outcome(row.stamp, 0, outcome);
            assert_eq!(told(&mut table, &done), (outcome + 2, 0));
        }
    }
    told(&mut table, &message::propose_prepare(asked))
}

/// What becomes of an entry that is open in a merge, beside the same others: they are prepared in both tables of three
/// boxes, and committed if so, and the entry stands in one of them.
fn merged_with(earlier: &[(Row, Option<u8>)], asked: &Row) -> (u8, u64) {
    let held = |row: &Row, outcome: Option<u8>| Row {
        prepare: OK + 4,
        outcome: outcome.map_or(0, |outcome| outcome + 2),
        ..row.clone()
    };
    let mut settled: Vec<Row> = earlier.iter().map(|(row, o)| held(row, *o)).collect();
    settled.sort_by_key(|row| row.stamp);
    let mut with_the_entry = settled.clone();
    with_the_entry.push(Row {
        prepare: OK,
        ..asked.clone()
    });
    with_the_entry.sort_by_key(|row| row.stamp);
    let out = merge_of(3, &[with_the_entry, settled]);
    let (table, _) = reference::Table::parse(&out).expect("a merged table");
    let row = &table.rows[&asked.stamp];
    (row.prepare_byte() - 4, row.retry_stamp())
}

/// What is said to it by a box, and by a merge.
fn by_both(earlier: &[(Row, Option<u8>)], asked: &Row) -> (u8, u64) {
    let told = checked(earlier, asked);
    assert_eq!(merged_with(earlier, asked), told);
    told
}

/// "M4: committed write of k at 10; s 20 read k at 0: ABORT. M5: read at 10: OK. M6: s 8 read at 0: OK."
/// "M6 and M9 become merge cases": a box refuses the entry.
#[test]
fn a_read_of_what_was_overwritten_is_aborted() {
    let written = [(writer(10), COMMIT)];
    assert_eq!(by_both(&written, &reader(20, 0)), (ABORT, 0));
    assert_eq!(by_both(&written, &reader(20, 10)), (OK, 0));
    assert_eq!(merged_with(&written, &reader(8, 0)), (OK, 0));
    assert_eq!(checked(&written, &reader(8, 0)), (ABORT, 0));
}

/// "M7: committed read of k at 10 by 30; write at 20: RETRY 30. M8: write at 31: OK. M9: write at 9: OK."
#[test]
fn a_write_below_a_later_read_is_told_to_retry() {
    let read = [(reader(30, 10), COMMIT)];
    assert_eq!(by_both(&read, &writer(20)), (RETRY, 30));
    assert_eq!(by_both(&read, &writer(31)), (OK, 0));
    assert_eq!(merged_with(&read, &writer(9)), (OK, 0));
    assert_eq!(checked(&read, &writer(9)), (RETRY, 30));
}

/// "Case M7 gains a companion with a prepared reader at 40 that read at 10: RETRY 40."
#[test]
fn a_write_below_a_later_prepared_read_is_told_of_it() {
    let companion = [(reader(30, 10), COMMIT), (reader(40, 10), PREPARED)];
    assert_eq!(by_both(&companion, &writer(20)), (RETRY, 40));
    let [committed, prepared] = companion;
    // Whichever came first; the prepared one alone; and what a writer meets that takes the next stamp.
    let turned = [prepared.clone(), committed.clone()];
    assert_eq!(checked(&turned, &writer(20)), (RETRY, 40));
    assert_eq!(by_both(&[prepared.clone()], &writer(20)), (ABSTAIN, 0));
    let above = [committed, prepared, (reader(50, 35), PREPARED)];
    assert_eq!(merged_with(&above, &writer(20)), (RETRY, 40));
    assert_eq!(merged_with(&above, &writer(41)), (ABSTAIN, 0));
    assert_eq!(checked(&above, &writer(20)), (RETRY, 50));
    assert_eq!(checked(&above, &writer(51)), (OK, 0));
}

/// M7 with a row that is neither "the greatest among committed and prepared readers that meet the same inequality", nor "the
/// greatest committed or prepared one" of a box: below the committed one, aborted, of a register that is not written.
#[test]
fn a_write_below_a_later_read_is_told_of_no_other() {
    let elsewhere = Row::of(40, vec![access(REGISTER + 1, 10)], Vec::new());
    for beside in [
        (reader(25, 10), PREPARED),
        (reader(40, 10), ABORTED),
        (elsewhere.clone(), PREPARED),
    ] {
        let both = [(reader(30, 10), COMMIT), beside];
        assert_eq!(by_both(&both, &writer(20)), (RETRY, 30), "{:?}", both);
    }
    // The last one counts as soon as its register is written too.
    let both = [(reader(30, 10), COMMIT), (elsewhere, PREPARED)];
    let mut asked = writer(20);
    asked.writes.push(access(REGISTER + 1, 7));
    assert_eq!(by_both(&both, &asked), (RETRY, 40));
    // Of a version that is not below the write: for a box it is in the way.
    let late = [(reader(30, 10), COMMIT), (reader(40, 20), PREPARED)];
    assert_eq!(merged_with(&late, &writer(20)), (RETRY, 30));
    assert_eq!(checked(&late, &writer(20)), (RETRY, 40));
}

/// "M10: M4 with the write prepared: ABSTAIN."
#[test]
fn a_read_of_what_may_be_overwritten_abstains() {
    let prepared = [(writer(10), PREPARED)];
    assert_eq!(by_both(&prepared, &reader(20, 0)), (ABSTAIN, 0));
}

/// "no entry may be slipped under one already accepted": what a box says of later rows, and a merge does not.
#[test]
fn an_entry_under_a_later_one_is_refused_by_a_box_alone() {
    let other = Row::of(30, vec![access(REGISTER + 1, 0)], Vec::new());
    let both = Row::of(20, vec![access(REGISTER, 0)], vec![access(REGISTER, 7)]);
    for (held, state, asked, told) in [
        (writer(10), COMMIT, writer(9), (RETRY, 10)),
        (writer(10), PREPARED, writer(9), (ABSTAIN, 0)),
        (writer(10), PREPARED, reader(8, 0), (ABSTAIN, 0)),
        (reader(10, 9), PREPARED, writer(9), (ABSTAIN, 0)),
        (writer(30), COMMIT, both, (ABORT, 0)),
        (writer(10), ABORTED, writer(9), (OK, 0)),
        (other, COMMIT, writer(20), (OK, 0)),
        (reader(30, 0), COMMIT, reader(20, 0), (OK, 0)),
    ] {
        let held = [(held, state)];
        assert_eq!(checked(&held, &asked), told, "{:?} {:?}", held, asked);
        assert_eq!(merged_with(&held, &asked), (OK, 0));
    }
    // "giving the greatest committed or prepared one": a prepared write above a committed read.
    let two = [(reader(30, 10), COMMIT), (writer(40), PREPARED)];
    assert_eq!(checked(&two, &writer(20)), (RETRY, 40));
}

/// The merge for view 1 of tables with these rows, box by box.
fn merge_of(n: u8, tables: &[Vec<Row>]) -> Vec<u8> {
    let table = |(box_number, rows): (u8, &Vec<Row>)| Table {
        box_number,
        n,
        mode: 1,
        view: 0,
        promised: 1,
        start_rows: 0,
        rows: rows.clone(),
    };
    let images = (0..n).zip(tables).map(|held| table(held).image());
    let run: Vec<u8> = images.flatten().collect();
    let mut out = vec![0; TABLE_BYTES];
    assert_eq!(boundary::merge(&run, 1, &mut out), 0);
    out
}

/// What becomes of a tentative ABSTAIN that so many of f+1 tables hold: its prepare byte in the merge.
fn merged(n: u8, holding: u8) -> u8 {
    let held = Row {
        prepare: ABSTAIN,
        ..writer(10)
    };
    let rows = |box_number| vec![held.clone(); usize::from(box_number < holding)];
    let tables: Vec<Vec<Row>> = (0..n / 2 + 1).map(rows).collect();
    merge_of(n, &tables)[24 + 22]
}

/// "M1 to M3: the count rows above": the agreement count is 2, 2 and 3. What is agreed stays; the rest is checked, and
/// nothing clashes with it.
#[test]
fn the_agreement_counts_are_those_of_the_table() {
    for (n, agreement) in [(3, 2), (5, 2), (7, 3)] {
        assert_eq!(merged(n, agreement), ABSTAIN + 4, "{} of {}", agreement, n);
        assert_eq!(merged(n, agreement - 1), OK + 4, "fewer of {}", n);
    }
}
