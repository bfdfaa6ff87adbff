//! `answer`

use super::show::assert_reply;
use crate::common::boxes::{in_a_view, long_table, settled};
use crate::common::json::{Value, READ, STAMP, VERSION};
use crate::common::ran::{bad_usage, not_tried, refused};
use crate::common::{answered, fresh, hex, run, Folder, History};
use samples::{damage, message as make, random, Access, Dice, Row};
use std::collections::BTreeSet;

/// "After message 1 with stamp 65,537 and one write, register 5, value 7: rows 1, length 57 [..]"
#[test]
fn the_bytes_of_the_paper() {
    let folder = Folder::new();
    run(&folder, "fresh --n 3 --box 0 zero.table").done();
    run(&folder, "message propose-prepare 1:1 write 5=7 --out m").done();
    let ran = run(&folder, "answer zero.table m --reply r").done();
    assert!(ran
        .out
        .contains("0 done: box 0 in view 0: tentative OK for 1:1"));
    let header = [&[1, 0, 3, 0, 0, 0, 0, 1][..], &[0; 12], &[0, 0, 0, 57]].concat();
    let row = [
        &[0, 0, 0, 0, 0, 1, 0, 1][..],
        &[0; 8],
        &[0, 0, 0, 48, 0, 1, 1, 0],
    ]
    .concat();
    let body = vec![5, 0, 0, 0, 0, 0, 0, 0, 7];
    assert_eq!(folder.bytes("zero.table"), [header, row, body].concat());
    let reply = [
        &[0, 1, 0, 1, 0, 0, 0, 0][..],
        &[0, 0, 0, 0, 0, 1, 0, 1],
        &[0; 8],
    ]
    .concat();
    assert_eq!(folder.bytes("r"), reply);
    assert_eq!(folder.names(), ["m", "r", "zero.table"]);
}

/// Long histories of one table file: number, name, table file and reply file are those of the second program, and the rows
/// compared are those of halving.
#[test]
fn histories_are_those_of_the_second_program() {
    let mut met = [0; 12];
    let mut compared = BTreeSet::new();
    for seed in 1..29 {
        let folder = Folder::new();
        let mut history = History::seeded(seed);
        folder.put("t", &history.image);
        for _ in 0..25 {
            let (number, rows) = asked(&folder, &mut history);
            met[usize::from(number)] += 1;
            compared.insert(rows);
        }
        assert_eq!(folder.names(), ["m", "r", "t"]);
    }
    // Every number that a box gives to a whole table; 1 and 11 are none of them.
    let given = [
        met[0], met[3], met[4], met[5], met[6], met[7], met[8], met[9], met[10],
    ];
    assert!(given.iter().all(|times| *times > 2), "{:?}", met);
    assert_eq!((met[1], met[2], met[11]), (0, 0, 0));
    // In tables of few rows, and in full ones.
    assert!([0, 1, 2, 3, 9].iter().all(|rows| compared.contains(rows)));
    assert!(compared.iter().all(|rows| *rows <= 10), "{:?}", compared);
}

/// "equal to the steps of a written definition of halving": of the rows left, the one with half as many before it, rounded
/// down, is compared. It has the stamp, or the search goes on behind it, or before it.
fn steps(stamps: &[u64], stamp: u64) -> u64 {
    let (before, rest) = stamps.split_at(stamps.len() / 2);
    match rest.split_first() {
        None => 0,
        Some((middle, _)) if *middle == stamp => 1,
        Some((middle, behind)) if *middle < stamp => 1 + steps(behind, stamp),
        Some(_) => 1 + steps(before, stamp),
    }
}

/// "The answer to messages 1 to 4 passes this number on beside the reply, with 0 for refusals numbered 1 to 4 and 9."
fn compared(image: &[u8], message: &[u8], number: u8) -> u64 {
    let searched = matches!(number, 0 | 5..=8) && matches!(message[0], 1..=4);
    if !searched {
        return 0;
    }
    let rows = reference::Table::parse(image).expect("a table").0.rows;
    let stamps: Vec<u64> = rows.keys().copied().collect();
    let stamp = message[1..9].try_into().expect("eight bytes");
    steps(&stamps, u64::from_be_bytes(stamp))
}

/// Has one message answered by the program and the second program: the number, and the rows compared.
fn asked(folder: &Folder, history: &mut History) -> (u8, u64) {
    let message = history.message();
    let before = history.image.clone();
    let (number, reply) = history.answer(&message);
    folder.put("m", &message);
    let inode = folder.inode("t");
    let ran = run(folder, "answer t m --json --reply r --replace");
    assert_eq!(
        folder.bytes("t"),
        history.image,
        "{:02x?}: {:?}",
        message,
        ran
    );
    assert_eq!(folder.bytes("r"), reply, "{:02x?}: {:?}", message, ran);
    let changed = before != history.image;
    assert_eq!(folder.inode("t") != inode, changed, "{:?}", ran);
    let told = ran.json();
    assert_eq!(told.text("reply"), Some(&*hex(&reply)));
    assert_eq!(told.text("reply_file"), Some("r"));
    assert_eq!(told.at(&["table_changed"]), &Value::Bool(changed));
    let rows = compared(&before, &message, number);
    assert_eq!(told.number("rows_compared"), Some(rows), "{:?}", ran);
    if number != 0 {
        ran.refused_json(number);
        return (number, rows);
    }
    ran.done();
    assert_reply(&told, &reply);
    assert_gone(&told, &before, &history.image);
    (number, rows)
}

/// The rows compared, counted by hand: how many rows the table has, the message, the number, and the rows compared if a stamp
/// was searched. The rows have the stamps 1:1, 2:1 and so on. Of three rows 2:1 is compared first. Of 512 it is 257:1; before
/// it then 129:1, 65:1, 33:1, 17:1, 9:1, 5:1, 3:1, 2:1 and 1:1, and behind it 385:1, 449:1, 481:1, 497:1, 505:1, 509:1, 511:1
/// and 512:1. Of 255, and of 256, eight lie on the way behind all of them. From 256 on a table of this view has no room.
const COMPARED: [(u64, &str, u8, Option<u64>); 18] = [
    (0, "propose-prepare 1:1 write 5=7", 0, Some(0)),
    (0, "finalise-prepare 1:1 view 0 OK", 8, Some(0)),
    (1, "propose-prepare 1:1 write 5=7", 0, Some(1)),
    (3, "propose-prepare 4:1 write 5=7", 0, Some(2)),
    (3, "finalise-prepare 2:1 view 0 OK", 0, Some(1)),
    (3, "propose-outcome 1:1 abort write 5=7", 0, Some(2)),
    (3, "finalise-outcome 2:1 view 0 abort", 8, Some(1)),
    (3, "propose-prepare 3:1 write 5=8", 5, Some(2)),
    (3, "finalise-prepare 1:1 view 1 OK", 9, None),
    (3, "change-view 1", 0, None),
    (3, "change-view 0", 10, None),
    (3, "read 3:1 register 5", 0, None),
    (255, "propose-prepare 256:1 write 5=7", 0, Some(8)),
    (256, "propose-prepare 257:1 write 5=7", 7, Some(8)),
    (512, "propose-prepare 1:1 write 5=7", 0, Some(10)),
    (512, "propose-prepare 257:1 write 5=7", 0, Some(1)),
    (512, "propose-prepare 513:1 write 5=7", 7, Some(9)),
    (512, "propose-outcome 512:1 commit write 5=8", 5, Some(9)),
];

#[test]
fn the_rows_compared_are_told_behind_all_else() {
    let folder = Folder::new();
    for (rows, words, number, compared) in COMPARED {
        folder.put("t", &long_table(rows));
        run(&folder, &format!("message {} --out m --replace", words)).done();
        let told = run(&folder, "answer t m --json").json();
        assert_eq!(told.number("number"), Some(u64::from(number)), "{}", words);
        assert_eq!(told.number("rows_compared"), Some(compared.unwrap_or(0)));
        folder.put("t", &long_table(rows));
        let out = run(&folder, "answer t m").out;
        let said = match compared {
            Some(1) => "; 1 row compared\n".to_string(),
            Some(rows) => format!("; {} rows compared\n", rows),
            None => String::new(),
        };
        assert!(out.ends_with(&said), "{}: {}", words, out);
        assert_eq!(out.contains("compared"), compared.is_some(), "{}", out);
    }
}

/// A table that is between two views, one that is none, and a message that is none.
#[test]
fn nothing_is_compared_for_refusals_2_3_and_4() {
    let folder = Folder::new();
    let (normal, changing) = held();
    let prepare = make::propose_prepare(&samples::row_of_the_paper(0));
    let cases: [(&[u8], &[u8], u8); 3] = [
        (&normal[1..], &prepare, 2),
        (&normal, &prepare[1..], 3),
        (&changing, &prepare, 4),
    ];
    for (table, message, number) in cases {
        folder.put("t", table);
        folder.put("m", message);
        refused(&folder, "answer t m", number);
        let told = run(&folder, "answer t m --json").json();
        assert_eq!(told.number("rows_compared"), Some(0), "{}", number);
        let out = run(&folder, "answer t m").out;
        assert!(!out.contains("compared"), "{}", out);
    }
}

/// A normal table of box 0 of 3 in view 4. Of its rows 1:1, 3:1 and 8:1 are committed, the last with an outcome alone; 5:1 is
/// prepared, and so is 6:1, whose abort is only noted; 7:1 counts for nothing, since its abort is done.
fn accepted() -> Vec<u8> {
    let access = |register, number| Access { register, number };
    let row = |time: u64, reads: &[(u8, u64)], (register, value), prepare, outcome| Row {
        prepare,
        outcome,
        ..Row::of(
            time * 65_536 + 1,
            reads.iter().map(|(k, v)| access(*k, *v)).collect(),
            vec![access(register, value)],
        )
    };
    let rows = vec![
        row(1, &[], (5, 7), 1, 3),
        row(3, &[(6, 0)], (5, 9), 5, 3),
        row(5, &[(7, 0)], (8, 1), 1, 0),
        row(6, &[], (9, 1), 5, 2),
        row(7, &[], (10, 1), 1, 4),
        row(8, &[], (11, 2), 0, 3),
    ];
    let table = samples::Table {
        view: 4,
        promised: 4,
        ..samples::Table::in_view_0(rows)
    };
    table.image()
}

/// The message in words, the result, and of what is in the way: the register, the version that was read of it, if it is a read
/// that it is about, and the row.
type Named = (&'static str, &'static str, u8, Option<u64>, &'static str);

const THREE: &str = "3:1 final OK, commit done, read 6@0 write 5=9";
const FIVE: &str = "5:1 tentative OK, none, read 7@0 write 8=1";
const SIX: &str = "6:1 final OK, abort noted, write 9=1";
const EIGHT: &str = "8:1 none, commit done, write 11=2";

#[rustfmt::skip]
const IN_THE_WAY: [Named; 12] = [
    // What was read is older than the newest committed write of it, which may be later or earlier than the stamp.
    ("2:1 read 5@1:1", "ABORT", 5, Some(65_537), THREE),
    ("9:1 read 4@0 5@1:1 write 7=1", "ABORT", 5, Some(65_537), THREE),
    ("2:1 read 5@0 write 7=1", "ABORT", 5, Some(0), THREE),
    ("2:1 read 11@0", "ABORT", 11, Some(0), EIGHT),
    // The latest row, committed or prepared, that accesses what is written.
    ("2:1 write 5=1", "RETRY 3:1", 5, None, THREE),
    ("2:1 write 6=1", "RETRY 3:1", 6, None, THREE),
    ("2:1 write 4=1 5=1 7=1", "RETRY 5:1", 7, None, FIVE),
    ("2:1 write 5=1 9=1", "RETRY 6:1", 9, None, SIX),
    // A prepared row, of a read first.
    ("9:1 read 8@0", "ABSTAIN", 8, Some(0), FIVE),
    ("2:1 read 8@0 write 9=1", "ABSTAIN", 8, Some(0), FIVE),
    ("4:1 write 7=1", "ABSTAIN", 7, None, FIVE),
    ("4:1 write 7=1 9=1", "ABSTAIN", 9, None, SIX),
];

#[test]
fn what_stands_in_the_way_of_a_new_stamp_is_named() {
    let folder = Folder::new();
    for (words, result, register, version, row) in IN_THE_WAY {
        folder.put("t", &accepted());
        let line = format!("message propose-prepare {} --out m --replace", words);
        run(&folder, &line).done();
        let out = run(&folder, "answer t m").done().out;
        let stamp = words.split(' ').next().expect("a stamp");
        let about = match version {
            None => "which it writes: the later row",
            Some(0) => "which it read in version 0: the newer row",
            Some(_) => "which it read in version 1:1: the newer row",
        };
        let said = format!(
            ": tentative {} for {}; in the way at register {}, {} {}; the table is stored; ",
            result, stamp, register, about, row
        );
        assert!(out.contains(&said), "{} in {}", said, out);
        folder.put("t", &accepted());
        let told = run(&folder, "answer t m --json").done().json();
        let found = told.at(&["in_the_way"]);
        assert_eq!(found.number("register"), Some(u64::from(register)));
        assert_eq!(found.stamp(VERSION), version, "{}", words);
        let shown = run(&folder, "show t --json").done().json();
        let held = shown.at(&["table"]).list("rows").iter();
        let held = held.filter(|held| row.starts_with(&*short(held)));
        assert_eq!(held.collect::<Vec<_>>(), [found.at(&["row"])], "{}", words);
    }
}

/// The stamp of a row as people write it, with the space behind it.
fn short(row: &Value) -> String {
    let stamp = row.stamp(STAMP).expect("a stamp");
    format!("{}:{} ", stamp >> 16, stamp & 0xffff)
}

/// Nothing was checked now where the stamp was held, and nothing stands in the way of OK.
#[test]
fn nothing_is_said_to_be_in_the_way_where_nothing_was_checked() {
    let folder = Folder::new();
    for (table, words, said) in [
        (accepted(), "propose-prepare 2:1 write 10=1", "tentative OK"),
        (
            accepted(),
            "propose-prepare 9:1 write 5=1 8=1",
            "tentative OK",
        ),
        (accepted(), "propose-prepare 8:1 write 11=2", "tentative OK"),
        (held().0, "propose-prepare 3:1 write 5=7", "tentative ABORT"),
        (held().0, "finalise-prepare 1:1 view 4 ABORT", "final ABORT"),
        (
            held().0,
            "propose-outcome 9:1 abort write 5=7",
            "abort noted",
        ),
        (held().0, "read 9:1 register 5", "7, written by 2:1"),
    ] {
        folder.put("t", &table);
        run(&folder, &format!("message {} --out m --replace", words)).done();
        assert_nothing_in_the_way(&folder, said);
    }
    for (words, result, ..) in IN_THE_WAY {
        folder.put("t", &accepted());
        let line = format!("message propose-prepare {} --out m --replace", words);
        run(&folder, &line).done();
        run(&folder, "answer t m").done();
        // The same message again: the result is held, and is answered as it was.
        assert_nothing_in_the_way(&folder, &format!("tentative {}", result));
    }
}

fn assert_nothing_in_the_way(folder: &Folder, said: &str) {
    let table = folder.bytes("t");
    let out = run(folder, "answer t m").done().out;
    assert!(out.contains(said) && !out.contains("in the way"), "{}", out);
    folder.put("t", &table);
    let told = run(folder, "answer t m --json").done().json();
    let fields = match &told {
        Value::Object(fields) => fields,
        other => panic!("{:?}", other),
    };
    assert_eq!(fields.get("in_the_way"), Some(&Value::Null), "{:?}", told);
}

/// The rows that the table had and has no more are told, each of them and no other.
fn assert_gone(told: &Value, before: &[u8], after: &[u8]) {
    let rows = |image: &[u8]| reference::Table::parse(image).expect("a table").0.rows;
    let (before, after) = (rows(before), rows(after));
    let gone = before.keys().filter(|stamp| !after.contains_key(stamp));
    let told = told.list("rows_gone").iter();
    let told = told.map(|row| row.stamp(STAMP).expect("a stamp"));
    assert!(told.eq(gone.copied()));
}

/// "The box takes it whole": what it alone had heard of is gone, and is not gone silently.
#[test]
fn rows_that_a_start_takes_away_are_named() {
    let folder = Folder::new();
    let (normal, _) = held();
    folder.put("t", &normal);
    let mut rows = reference::Table::parse(&settled(&normal, 9))
        .expect("a table")
        .0;
    rows.rows.remove(&(65_536 + 1));
    rows.rows.remove(&(3 * 65_536 + 1));
    rows.start_rows = rows.rows.len();
    folder.put("m", &make::start_view(9, &rows.image()));
    let out = run(&folder, "answer t m").done().out;
    let gone = "; not in the table of the view, and so gone: 2 rows: \
                1:1 tentative OK, none, write 5=7; 3:1 none, abort noted, write 5=7\n";
    assert!(out.ends_with(gone), "{}", out);
    folder.put("t", &normal);
    let told = run(&folder, "answer t m --json").done().json();
    assert_gone(&told, &normal, &folder.bytes("t"));
    assert_eq!(told.list("rows_gone").len(), 2);
}

/// A read says what was asked, which the reply does not have.
#[test]
fn a_read_names_its_register_and_stamp() {
    let folder = Folder::new();
    folder.put("t", &held().0);
    for (words, says, stamp, version) in [
        (
            "read 2:9 register 5",
            "register 5 as of 2:9: 7, written by 2:1",
            131_081,
            Some(131_073),
        ),
        (
            "read 1:9 register 5",
            "register 5 as of 1:9: never written",
            65_545,
            None,
        ),
    ] {
        run(&folder, &format!("message {} --out m --replace", words)).done();
        let out = run(&folder, "answer t m").done().out;
        assert!(out.contains(says), "{}", out);
        let told = run(&folder, "answer t m --json").done().json();
        assert_eq!(told.number("register"), Some(5));
        assert_eq!(told.stamp(READ), Some(stamp));
        assert_eq!(told.stamp(VERSION), version);
        assert_eq!(told.text("value"), version.map(|_| "7"));
    }
}

/// The file that is wrong is named, and what it is instead.
#[test]
fn files_in_the_wrong_place_are_named() {
    let folder = Folder::new();
    folder.put("t", &held().0);
    folder.put("m", &make::read(9, 5));
    run(&folder, "answer t m --reply r").done();
    for (line, says) in [
        ("answer t t", "t: refused with 3 bad message: "),
        ("answer t r", "r: refused with 3 bad message: "),
        ("answer m t", "m: refused with 2 bad table: "),
        ("answer r m", "r: refused with 2 bad table: "),
        ("show m", "m: refused with 2 bad table: "),
        ("check --message t", "t: refused with 3 bad message: "),
        ("show --reply m", "m: refused with 3 bad message: "),
    ] {
        let ran = run(&folder, line);
        assert!(ran.out.starts_with(says), "{:?}", ran);
        let what = match &says[..1] {
            "t" => "(the file is a table)\n",
            "m" => "(the file is a message)\n",
            _ => "(the file is a reply)\n",
        };
        assert!(ran.out.ends_with(what), "{:?}", ran);
    }
}

/// A normal table of box 0 of 3 in view 4, and the changing one that it becomes for view 9. It holds 1:1 with a tentative OK, 2:1
/// with a final one and commit done, 3:1 with abort noted and no prepare.
fn held() -> (Vec<u8>, Vec<u8>) {
    let mut rows: Vec<Row> = [1, 5, 0].map(samples::row_of_the_paper).to_vec();
    for (time, row) in (1..).zip(&mut rows) {
        row.stamp = time * 65_536 + 1;
        row.outcome = [0, 3, 2][time as usize - 1];
    }
    let table = samples::Table {
        box_number: 0,
        n: 3,
        mode: 0,
        view: 4,
        promised: 4,
        start_rows: 0,
        rows,
    };
    let normal = table.image();
    let changing = answered(&normal, &make::change_view(9)).1;
    (normal, changing)
}

/// Every number that a box gives, each in each of its circumstances: the message in words, and what the reason has to say.
const REFUSED: [(bool, u8, &str, &str); 23] = [
    (true, 4, "propose-prepare 1:1 write 5=7", "promised view 9"),
    (true, 4, "finalise-prepare 1:1 view 4 OK", "promised view 9"),
    (
        true,
        4,
        "propose-outcome 1:1 commit write 5=7",
        "promised view 9",
    ),
    (
        true,
        4,
        "finalise-outcome 2:1 view 4 commit",
        "promised view 9",
    ),
    (true, 4, "read 1:1 register 5", "left view 4"),
    (false, 5, "propose-prepare 1:1 write 5=8", "write 5=7"),
    (false, 5, "propose-prepare 3:1 read 1@0", "3:1"),
    (false, 5, "propose-outcome 2:1 commit write 6=7", "2:1"),
    (false, 6, "finalise-prepare 2:1 view 4 ABORT", "final OK"),
    (
        false,
        6,
        "finalise-prepare 2:1 view 4 RETRY 2:1",
        "RETRY 2:1",
    ),
    (
        false,
        6,
        "propose-outcome 2:1 abort write 5=7",
        "commit done",
    ),
    (
        false,
        6,
        "propose-outcome 3:1 commit write 5=7",
        "abort noted",
    ),
    (
        false,
        6,
        "finalise-outcome 3:1 view 4 commit",
        "says commit",
    ),
    (false, 8, "finalise-prepare 9:1 view 4 OK", "no row of 9:1"),
    (false, 8, "finalise-prepare 3:1 view 4 OK", "no prepare"),
    (
        false,
        8,
        "finalise-outcome 9:1 view 4 abort",
        "no row of 9:1",
    ),
    (false, 8, "finalise-outcome 1:1 view 4 abort", "no outcome"),
    (false, 9, "finalise-prepare 1:1 view 3 OK", "view 4"),
    (false, 9, "finalise-outcome 2:1 view 5 commit", "view 5"),
    (false, 10, "change-view 4", "promised view 4"),
    (false, 10, "change-view 0", "view 0"),
    (true, 10, "change-view 9", "promised view 9"),
    (true, 10, "change-view 5", "view 5"),
];

#[test]
fn refusals_of_messages_1_to_5_and_7() {
    let folder = Folder::new();
    let (normal, changing) = held();
    for (is_changing, number, words, reason_says) in REFUSED {
        folder.put("t", if is_changing { &changing } else { &normal });
        run(&folder, &format!("message {} --out m --replace", words)).done();
        let (reason, _) = refused(&folder, "answer t m", number);
        assert!(reason.contains(reason_says), "{}: {}", words, reason);
        assert_refusal_is_replied(&folder, number);
    }
}

/// The reply of a refusal is written where one is asked for: "the number in byte 0 and 23 zero bytes".
fn assert_refusal_is_replied(folder: &Folder, number: u8) {
    let table = folder.bytes("t");
    run(folder, "answer t m --reply r").refused(number);
    let mut reply = vec![0; 24];
    reply[0] = number;
    assert_eq!(folder.bytes("r"), reply);
    assert_eq!(folder.bytes("t"), table);
    folder.remove("r");
}

/// n, the rows with which the view began and the rows held; then what the refusal of a new stamp says of them, and of a view
/// change. By messages no table of three comes beyond 511 rows: the last one was filled by a box that did not keep room.
const WITHOUT_ROOM: [(u8, u32, u32, &str, &str); 6] = [
    (
        3,
        0,
        256,
        "has added 256 rows, where it may add 256 (512 less 0 start rows, divided by 2, rounded down)",
        "a view change makes room for 128 more, if the view begins with the 256 rows held here",
    ),
    (
        5,
        0,
        170,
        "has added 170 rows, where it may add 170 (512 less 0 start rows, divided by 3, rounded down)",
        "a view change makes room for 114 more, if the view begins with the 170 rows held here",
    ),
    (
        7,
        505,
        506,
        "has added 1 row, where it may add 1 (512 less 505 start rows, divided by 4, rounded down)",
        "a view change makes room for 1 more, if the view begins with the 506 rows held here",
    ),
    (
        3,
        510,
        511,
        "has added 1 row, where it may add 1 (512 less 510 start rows, divided by 2, rounded down)",
        "while the 511 rows held here stay, no view change makes room, since fewer than 2 are left",
    ),
    (
        5,
        510,
        510,
        "has added 0 rows, where it may add 0 (512 less 510 start rows, divided by 3, rounded down)",
        "while the 510 rows held here stay, no view change makes room, since fewer than 3 are left",
    ),
    (
        3,
        0,
        512,
        "has added 512 rows, where it may add 256 (512 less 0 start rows, divided by 2, rounded down)",
        "while the 512 rows held here stay, no view change makes room, since fewer than 2 are left",
    ),
];

#[test]
fn a_box_without_room_says_its_share_and_what_a_view_change_does() {
    let folder = Folder::new();
    for (n, start_rows, rows, share, view_change) in WITHOUT_ROOM {
        folder.put("t", &in_a_view(n, start_rows, rows));
        for words in ["propose-prepare 900:1", "propose-outcome 900:1 abort"] {
            let line = format!("message {} write 5=7 --out m --replace", words);
            run(&folder, &line).done();
            let (reason, _) = refused(&folder, "answer t m", 7);
            let said = format!(
                "the stamp 900:1 is new, and since view 7 began this box {}: nothing was stored; {}",
                share, view_change
            );
            assert_eq!(reason, said);
            assert_refusal_is_replied(&folder, 7);
        }
    }
}

/// "A group with no room left still reads, finalises and changes view." Stamps that are held are served too.
#[test]
fn a_box_without_room_serves_all_but_new_stamps() {
    let folder = Folder::new();
    for (n, start_rows, rows, _, _) in WITHOUT_ROOM {
        let image = in_a_view(n, start_rows, rows);
        for words in [
            "propose-prepare 9:1 write 5=7",
            "finalise-prepare 9:1 view 7 OK",
            "propose-outcome 9:1 commit write 5=7",
            "read 9:1 register 5",
            "change-view 8",
        ] {
            folder.put("t", &image);
            run(&folder, &format!("message {} --out m --replace", words)).done();
            run(&folder, "answer t m").done();
            assert_eq!(folder.bytes("t"), answered(&image, &folder.bytes("m")).1);
        }
        folder.put("t", &image);
        for words in [
            "propose-outcome 9:1 commit write 5=7",
            "finalise-outcome 9:1 view 7 commit",
        ] {
            run(&folder, &format!("message {} --out m --replace", words)).done();
            run(&folder, "answer t m").done();
        }
        folder.put("started", &settled(&image, 8));
        run(&folder, "message start-view 8 started --out m --replace").done();
        run(&folder, "answer t m").done();
    }
}

/// A bad table, a bad message, a full table, and views that are started too late.
#[test]
fn refusals_2_3_7_and_10_of_message_6() {
    let folder = Folder::new();
    let (normal, changing) = held();
    let image = settled(&fresh(3, 0), 9);
    let eight = settled(&fresh(3, 0), 8);
    let four = settled(&fresh(3, 0), 4);
    let fives = settled(&fresh(5, 0), 9);
    let row = samples::row_of_the_paper(0);
    let prepare = make::propose_prepare(&row);
    let full = long_table(256);
    let new = make::propose_outcome(&Row { stamp: 5, ..row }, 1);
    let cases: [(&[u8], Vec<u8>, u8, &str); 9] = [
        (&normal[1..], prepare.clone(), 2, "format"),
        (&normal[..normal.len() - 1], vec![9], 2, "ends here"),
        (&normal, prepare[1..].to_vec(), 3, "at byte 0"),
        (&changing, vec![9], 3, "kind is 9"),
        (&normal, make::start_view(9, &fives), 3, "group of 5"),
        (&full, new, 7, "256 rows"),
        (
            &changing,
            make::start_view(8, &eight),
            10,
            "promised view 9",
        ),
        (&normal, make::start_view(4, &four), 10, "in view 4"),
        (&normal, make::change_view(4), 10, "view 4"),
    ];
    for (table, message, number, reason_says) in cases {
        folder.put("t", table);
        folder.put("m", &message);
        let (reason, _) = refused(&folder, "answer t m", number);
        assert!(reason.contains(reason_says), "{}: {}", number, reason);
        assert_refusal_is_replied(&folder, number);
    }
    folder.put("t", &changing);
    folder.put("m", &make::start_view(9, &image));
    run(&folder, "answer t m").done();
    assert_eq!(folder.bytes("t"), image);
}

/// Tables with a rule broken anywhere: 2, before anything that is wrong with the message.
#[test]
fn damaged_tables_are_refused_before_anything_else() {
    let folder = Folder::new();
    let mut dice = Dice::seeded(51);
    for turn in 0..40 {
        let mut image = random::table(&mut dice, turn % 4).image();
        damage::spoil(&mut dice, &mut image);
        if reference::Table::parse(&image).is_some() {
            continue;
        }
        folder.put("t", &image);
        folder.put("m", &dice.bytes(turn));
        refused(&folder, "answer t m", 2);
        assert_refusal_is_replied(&folder, 2);
    }
}

/// The same message a second time: the same reply for messages 1 to 4 and 7, and for a view "old view".
#[test]
fn the_same_message_again() {
    let folder = Folder::new();
    let started = settled(&fresh(3, 0), 10);
    for (words, again) in [
        ("propose-prepare 9:1 read 5@2:1 write 5=8", 0),
        ("finalise-prepare 1:1 view 4 ABSTAIN", 0),
        ("propose-outcome 1:1 abort write 5=7", 0),
        ("finalise-outcome 3:1 view 4 abort", 0),
        ("read 9:1 register 5", 0),
        ("change-view 10", 10),
        ("start-view 10 started", 10),
    ] {
        folder.put("t", &held().0);
        folder.put("started", &started);
        run(&folder, &format!("message {} --out m --replace", words)).done();
        run(&folder, "answer t m --reply first").done();
        let table = folder.bytes("t");
        let ran = run(&folder, "answer t m --reply second");
        if again == 0 {
            ran.done();
            assert_eq!(folder.bytes("second"), folder.bytes("first"), "{}", words);
        } else {
            ran.refused(again);
        }
        assert_eq!(folder.bytes("t"), table);
        folder.remove("first");
        folder.remove("second");
    }
}

#[test]
fn words_that_make_no_sense() {
    let folder = Folder::new();
    folder.put("t", &fresh(3, 0));
    folder.put("m", &make::change_view(1));
    for (line, words) in [
        ("answer", "the table file is missing"),
        ("answer t", "the message file is missing"),
        ("answer t m m", "'m' is one word too many"),
        ("answer t m --out r", "there is no option --out"),
        (
            "answer t m --replace",
            "--replace is for the file of --reply",
        ),
        ("answer t m --reply r --reply s", "--reply is given twice"),
        (
            "answer t m --reply t",
            "written over the table or the message",
        ),
        (
            "answer t m --reply m --replace",
            "written over the table or the message",
        ),
        (
            "answer t m --reply ./t --replace",
            "written over the table or the message",
        ),
    ] {
        bad_usage(&folder, line, words);
    }
    run(&folder, "answer t m --reply").bad_usage("--reply needs a value");
    not_tried(&folder, "answer missing m", "cannot read missing");
    not_tried(&folder, "answer t missing", "cannot read missing");
}
