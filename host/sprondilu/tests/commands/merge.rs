//! `merge`

use crate::common::ran::{bad_usage, not_tried, refused};
use crate::common::{answered, fresh, run, Folder};
use samples::{message as make, transactions, Dice, Row, Table, TABLE_BYTES};

/// A changing table of a box of n, in view 2, that promised view 7.
fn changing(n: u8, box_number: u8, rows: Vec<Row>) -> Table {
    Table {
        box_number,
        n,
        mode: 1,
        view: 2,
        promised: 7,
        start_rows: 0,
        rows,
    }
}

/// The second program's merge: the number, and the image if it is done.
fn merged(images: &[Vec<u8>], view: u32) -> (u8, Vec<u8>) {
    let mut out = vec![0; TABLE_BYTES];
    let number = reference::merge(&images.concat(), view, &mut out);
    let length = reference::Table::parse(&out).map_or(0, |(_, length)| length);
    out.truncate(length);
    (number, out)
}

/// Rows of a box, some of the transactions with any codes.
fn some_rows(dice: &mut Dice, transactions: &[Row], codes: u64) -> Vec<Row> {
    let mut rows = transactions.to_vec();
    rows.retain(|_| dice.in_a_hundred(70));
    for row in &mut rows {
        row.prepare = 1 + dice.below(codes) as u8;
        row.retry = if row.prepare % 4 == 0 { 9 } else { 0 };
        row.outcome = dice.one_of(&[0, 0, 0, 1]);
    }
    rows
}

/// Runs of tables of every group: the merged file is that of the second program, in any order of the tables.
#[test]
fn merges_are_those_of_the_second_program() {
    let mut dice = Dice::seeded(61);
    let mut met = [0; 12];
    for turn in 0..120 {
        let folder = Folder::new();
        let n = dice.one_of(&[3, 5, 7]);
        let transactions = transactions::some(&mut dice);
        let mut tables: Vec<Table> = (0..n / 2 + 1)
            .map(|place| {
                let rows = some_rows(&mut dice, &transactions, if turn % 4 == 0 { 8 } else { 4 });
                changing(n, n - 1 - place, rows)
            })
            .collect();
        if turn % 5 == 0 {
            tables[0].view = 1;
        }
        met[usize::from(asked(&folder, &mut dice, &tables))] += 1;
    }
    assert!(met[0] > 50 && met[6] > 5, "{:?}", met);
}

/// Has tables merged from files by the program and the second program.
fn asked(folder: &Folder, dice: &mut Dice, tables: &[Table]) -> u8 {
    let images: Vec<Vec<u8>> = tables.iter().map(Table::image).collect();
    let (number, image) = merged(&images, 7);
    let mut names: Vec<String> = (0..tables.len())
        .map(|place| format!("t{}", place))
        .collect();
    for (name, image) in names.iter().zip(&images) {
        let behind = dice.one_of(&[0, 0, 1, 60]);
        folder.put(name, &[image.clone(), dice.bytes(behind)].concat());
    }
    dice.shuffle(&mut names);
    let before = folder.state();
    let line = format!("merge --view 7 --out merged {}", names.join(" "));
    if number != 0 {
        refused(folder, &line, number);
        return number;
    }
    let told = run(folder, &format!("{} --json", line)).done().json();
    assert_eq!(folder.bytes("merged"), image);
    let header = told.at(&["header"]);
    assert_eq!(header.number("view"), Some(7));
    assert_eq!(header.number("length"), Some(image.len() as u64));
    let mut after = folder.state();
    after.remove("merged");
    assert!(after == before, "the tables stay as they are");
    number
}

/// Two tables of three boxes, by the worked row of the paper, and the words about it.
#[test]
fn a_merge_that_a_user_types() {
    let folder = Folder::new();
    folder.put("m1", &make::propose_prepare(&samples::row_of_the_paper(0)));
    folder.put("m5", &make::change_view(7));
    for name in ["zero", "two"] {
        let number = if name == "zero" { 0 } else { 2 };
        run(&folder, &format!("fresh --n 3 --box {} {}", number, name)).done();
    }
    run(&folder, "answer zero m1").done();
    run(&folder, "answer zero m5").done();
    run(&folder, "answer two m5").done();
    let out = run(&folder, "merge --view 7 --out one two zero").done().out;
    assert!(
        out.starts_with("one: the table with which view 7 begins: 1 row, 57 bytes\n"),
        "{}",
        out
    );
    let next = out.split("sprondilu ").nth(1).expect("what to do next");
    run(&folder, &next.replace("FILE", "m6")).done();
    run(&folder, "answer two m6").done();
    let expected = answered(&fresh(3, 2), &folder.bytes("m6")).1;
    assert_eq!(folder.bytes("two"), expected);
}

/// The files with tables that cannot be merged, or not with one another.
fn put_bad(folder: &Folder) {
    let row = samples::row_of_the_paper;
    let put = |name: &str, box_number: u8, change: fn(&mut Row)| {
        let mut row = row(5);
        change(&mut row);
        folder.put(name, &changing(3, box_number, vec![row]).image());
    };
    put("zero", 0, |_| {});
    put("one", 1, |row| row.prepare = 1);
    put("body", 1, |row| row.writes[0].number = 8);
    put("final", 1, |row| row.prepare = 6);
    put("done", 1, |row| row.outcome = 3);
    put("abort", 2, |row| row.outcome = 2);
    folder.put("two", &changing(3, 2, Vec::new()).image());
    folder.put("five", &changing(5, 1, Vec::new()).image());
    let mut other = changing(3, 1, Vec::new());
    other.promised = 8;
    folder.put("other", &other.image());
    folder.put("normal", &fresh(3, 1));
    let (mut begun, view) = (changing(3, 1, Vec::new()), 7);
    (begun.mode, begun.view) = (0, view);
    folder.put("begun", &begun.image());
    folder.put("short", &folder.bytes("one")[..56]);
    folder.put("half", &folder.bytes("one")[56..]);
}

/// Every number that a merge gives, with the reason.
#[test]
fn refusals() {
    let folder = Folder::new();
    put_bad(&folder);
    for (tables, number, words) in [
        ("zero short", 2, "ends here"),
        ("short half zero", 2, "ends here"),
        ("zero", 11, "exactly 2 tables"),
        ("zero one two", 11, "exactly 2 tables"),
        ("zero five", 11, "five of one of 5"),
        ("zero zero", 11, "both of box 0"),
        ("one body", 11, "both of box 1"),
        (
            "zero normal",
            11,
            "normal in view 0, and has not promised view 7",
        ),
        (
            "zero begun",
            11,
            "begun is of a box that has started view 7 already",
        ),
        ("zero other", 11, "promised view 8"),
        ("zero body", 5, "write 5=8"),
        ("zero final", 6, "final ABORT"),
        ("done abort", 6, "commit done and abort noted"),
    ] {
        let line = format!("merge --view 7 --out merged {}", tables);
        let (reason, _) = refused(&folder, &line, number);
        assert!(reason.contains(words), "{}: {}", tables, reason);
    }
    let (reason, _) = refused(&folder, "merge --view 6 --out merged zero one", 11);
    assert!(reason.contains("not view 6"), "{}", reason);
}

/// "a merge of more than 512 stamps"
#[test]
fn more_than_512_stamps_are_refused_and_nothing_is_cut() {
    let folder = Folder::new();
    let rows = |from: u64, to: u64| -> Vec<Row> {
        let row = |stamp| Row {
            stamp,
            ..samples::row_of_the_paper(5)
        };
        (from..=to).map(row).collect()
    };
    folder.put("zero", &changing(3, 0, rows(1, 500)).image());
    folder.put("one", &changing(3, 1, rows(100, 513)).image());
    let line = "merge --view 7 --out merged zero one";
    let (reason, _) = refused(&folder, line, 7);
    assert!(reason.contains("513 stamps"), "{}", reason);
    folder.put("one", &changing(3, 1, rows(100, 512)).image());
    run(&folder, line).done();
    assert_eq!(folder.bytes("merged")[4..8], [0, 0, 2, 0]);
}

/// "In a dry week two boxes took different entries, and the view change was refused as full." Now each stops at its share, and the
/// merge of both has 512 rows.
#[test]
fn two_boxes_that_took_different_entries_until_they_were_full_are_merged() {
    let folder = Folder::new();
    run(&folder, "message change-view 1 --out change").done();
    for (name, box_number) in [("zero", 0), ("one", 1)] {
        let mut table = crate::common::fresh(3, box_number);
        let mut taken = 0;
        for number in (0..).map(|entry| 1 + 2 * entry + u64::from(box_number)) {
            let row = Row {
                stamp: number,
                ..samples::row_of_the_paper(0)
            };
            folder.put("m", &samples::message::propose_prepare(&row));
            folder.put(name, &table);
            let (number, after, _) = crate::common::answered(&table, &folder.bytes("m"));
            if number != 0 {
                break;
            }
            (table, taken) = (after, taken + 1);
        }
        assert_eq!(taken, 256);
        refused(&folder, &format!("answer {} m", name), 7);
        run(&folder, &format!("answer {} change", name)).done();
    }
    run(&folder, "merge --view 1 --out merged zero one").done();
    assert_eq!(folder.bytes("merged")[4..8], [0, 0, 2, 0]);
    assert_eq!(folder.bytes("merged")[16..20], [0, 0, 2, 0]);
}

#[test]
fn a_file_that_is_there_is_never_written_over() {
    let folder = Folder::new();
    folder.put("zero", &changing(3, 0, Vec::new()).image());
    folder.put("one", &changing(3, 1, Vec::new()).image());
    folder.put("merged", b"old");
    let line = "merge --view 7 zero one --out";
    for there in ["merged", "zero", "./one"] {
        let words = format!("{} is there already", there);
        not_tried(&folder, &format!("{} {}", line, there), &words);
    }
    not_tried(&folder, &format!("{} .", line), "folder");
    not_tried(
        &folder,
        &format!("{} no/merged", line),
        "its folder is not there",
    );
    bad_usage(
        &folder,
        &format!("{} merged --replace", line),
        "there is no option --replace",
    );
}

#[test]
fn words_that_make_no_sense() {
    let folder = Folder::new();
    folder.put("t", &changing(3, 0, Vec::new()).image());
    for (line, words) in [
        ("merge", "--view is missing"),
        ("merge --view 7 t", "--out is missing"),
        ("merge --out m t", "--view is missing"),
        (
            "merge --view 7 --out m",
            "the table files of f+1 boxes are missing",
        ),
        ("merge --view 4294967296 --out m t", "'4294967296'"),
        ("merge --view seven --out m t", "'seven'"),
        ("merge --view 7 --view 7 --out m t", "--view is given twice"),
        ("merge --view 7 --out m --n 3 t", "there is no option --n"),
    ] {
        bad_usage(&folder, line, words);
    }
    run(&folder, "merge t --view 7 --out").bad_usage("--out needs a value");
    not_tried(&folder, "merge --view 7 --out m t no", "cannot read no");
}
