//! `show`

use crate::common::boxes::{in_a_view, settled, spoiled};
use crate::common::json::{Value, RETRY, STAMP, VERSION};
use crate::common::ran::{bad_usage, not_tried, refused};
use crate::common::{run, Folder, History};
use samples::{message as make, random, Dice, Row, Table};

fn number(value: u64) -> Value {
    Value::Number(value)
}

/// What stands in a row, as a program is told it.
fn assert_row(told: &Value, row: &Row) {
    assert_eq!(told.stamp(STAMP), Some(row.stamp));
    assert_prepare(told.at(&["prepare"]), row.prepare, row.retry);
    assert_outcome(told.at(&["outcome"]), row.outcome);
    assert_accesses(told, row);
}

/// "0 none; 1 to 4 tentative OK, ABORT, ABSTAIN, RETRY; 5 to 8 the same, final", with the stamp of RETRY.
fn assert_prepare(told: &Value, byte: u8, retry: u64) {
    if byte == 0 {
        assert_eq!(told, &Value::Null);
        return;
    }
    let result = ["OK", "ABORT", "ABSTAIN", "RETRY"][usize::from((byte - 1) % 4)];
    assert_eq!(told.text("result"), Some(result));
    assert_eq!(told.at(&["final"]), &Value::Bool(byte > 4));
    assert_eq!(told.number("byte"), Some(u64::from(byte)));
    assert_eq!(told.stamp(RETRY), Some(retry).filter(|_| byte % 4 == 0));
}

/// "0 none, 1 commit noted, 2 abort noted, 3 commit done, 4 abort done"
fn assert_outcome(told: &Value, byte: u8) {
    if byte == 0 {
        assert_eq!(told, &Value::Null);
        return;
    }
    let outcome = ["abort", "commit"][usize::from(byte % 2)];
    assert_eq!(told.text("outcome"), Some(outcome));
    assert_eq!(told.at(&["done"]), &Value::Bool(byte > 2));
    assert_eq!(told.number("byte"), Some(u64::from(byte)));
}

fn assert_accesses(told: &Value, row: &Row) {
    let reads = told.list("reads").iter();
    let reads: Vec<_> = reads
        .map(|one| (one.number("register"), one.stamp(VERSION)))
        .collect();
    let held = row.reads.iter();
    let held: Vec<_> = held
        .map(|one| (Some(u64::from(one.register)), Some(one.number)))
        .collect();
    assert_eq!(reads, held);
    let writes = told.list("writes").iter();
    let writes: Vec<_> = writes
        .map(|one| {
            (
                one.number("register"),
                one.text("value").and_then(|text| text.parse().ok()),
            )
        })
        .collect();
    let held = row.writes.iter();
    let held: Vec<_> = held
        .map(|one| (Some(u64::from(one.register)), Some(one.number)))
        .collect();
    assert_eq!(writes, held);
}

fn assert_header(told: &Value, table: &Table) {
    let header = told.at(&["header"]);
    assert_eq!(header.number("format"), Some(1));
    assert_eq!(header.number("box"), Some(u64::from(table.box_number)));
    assert_eq!(header.number("n"), Some(u64::from(table.n)));
    let mode = ["normal", "changing"][usize::from(table.mode)];
    assert_eq!(header.text("mode"), Some(mode));
    assert_eq!(header.number("rows"), Some(table.rows.len() as u64));
    assert_eq!(header.number("view"), Some(u64::from(table.view)));
    assert_eq!(
        header.number("promised_view"),
        Some(u64::from(table.promised))
    );
    assert_eq!(
        header.number("start_rows"),
        Some(u64::from(table.start_rows))
    );
    assert_eq!(header.number("length"), Some(table.length() as u64));
    let (read, _) = reference::Table::parse(&table.image()).expect("a table");
    let share = reference::room::share(reference::VALLEY, &read) as u64;
    assert_eq!(header.number("share"), Some(share));
    let added = table.rows.len() as u64 - u64::from(table.start_rows);
    assert_eq!(header.number("room"), Some(share.saturating_sub(added)));
}

#[test]
fn a_program_is_told_every_field_of_a_table() {
    let folder = Folder::new();
    let mut dice = Dice::seeded(21);
    for rows in (0..30).map(|place| place % 7).chain([200, 512]) {
        let table = random::table(&mut dice, rows);
        let more = dice.one_of(&[0, 0, 1, 300]);
        folder.put("a", &[table.image(), dice.bytes(more)].concat());
        let told = run(&folder, "show --json a").done().json();
        assert_eq!(told.at(&["bytes_behind"]), &number(more as u64));
        let shown = told.at(&["table"]);
        assert_header(shown, &table);
        assert_eq!(shown.list("rows").len(), rows);
        for (told, row) in shown.list("rows").iter().zip(&table.rows) {
            assert_row(told, row);
        }
    }
}

/// A person sees each row on a line of its own, in the order of the stamps.
#[test]
fn a_person_sees_box_views_and_rows() {
    let folder = Folder::new();
    let mut dice = Dice::seeded(22);
    for rows in [0, 1, 6, 512] {
        let mut table = random::table(&mut dice, rows);
        (table.mode, table.view, table.promised) = (1, 4, 9);
        folder.put("a", &[table.image(), vec![0; 5]].concat());
        let out = run(&folder, "show a").done().out;
        assert!(out.starts_with(&format!("box {} of {}\n", table.box_number, table.n)));
        assert!(
            out.contains("changing: it has left view 4 and promised view 9"),
            "{}",
            out
        );
        assert!(out.contains("5 more bytes follow"), "{}", out);
        let shown: Vec<&str> = out
            .lines()
            .filter(|line| line.trim_start().starts_with(|c: char| c.is_ascii_digit()))
            .filter(|line| line.contains('@') || line.contains('='))
            .collect();
        assert_eq!(shown.len(), rows, "{}", out);
        for (line, row) in shown.iter().zip(&table.rows) {
            let words: Vec<&str> = line.split_whitespace().collect();
            let stamp = [row.stamp, row.stamp >> 16, row.stamp & 0xffff].map(|n| n.to_string());
            assert_eq!(words[..3], stamp, "{}", line);
            for write in &row.writes {
                let said = format!("{}={}", write.register, write.number);
                assert!(words.contains(&&*said), "{} in {}", said, line);
            }
        }
    }
}

/// The table of the paper, as a person and a program see it.
#[test]
fn the_table_of_the_paper() {
    let folder = Folder::new();
    folder.put("a", &crate::common::boxes::long_table(1));
    assert_eq!(
        run(&folder, "show a").done().out,
        "box 0 of 3\n\
         normal in view 0\n\
         1 row of at most 512; view 0 began with 0; room for 255 more in this view\n\
         57 bytes\n\
         \n\
         stamp  time  client  prepare       outcome  body\n\
         65537     1       1  tentative OK  none     write 5=7\n"
    );
}

/// n, the rows with which the view began, the rows held, and what is said of the room. The last table was filled by a box that did
/// not keep room for the merge.
const ROOM: [(u8, u32, u32, &str); 8] = [
    (3, 0, 3, "room for 253 more in this view"),
    (5, 0, 169, "room for 1 more in this view"),
    (7, 0, 128, "no room for more in this view"),
    (3, 100, 306, "no room for more in this view"),
    (3, 510, 510, "room for 1 more in this view"),
    (3, 511, 511, "no room for more in this view"),
    (5, 509, 509, "room for 1 more in this view"),
    (3, 0, 512, "no room for more in this view"),
];

#[test]
fn a_person_sees_how_much_room_is_left() {
    let folder = Folder::new();
    for (n, start_rows, rows, said) in ROOM {
        let image = in_a_view(n, start_rows, rows);
        folder.put("a", &image);
        let line = format!(
            "\n{} rows of at most 512; view 7 began with {}; {}\n{} bytes\n",
            rows,
            start_rows,
            said,
            image.len()
        );
        let out = run(&folder, "show a").done().out;
        assert!(out.contains(&line), "{} in {}", line, out);
        // Between two views a box takes no new stamp.
        run(&folder, "message change-view 8 --out m --replace").done();
        run(&folder, "answer a m").done();
        let out = run(&folder, "show a").done().out;
        assert!(out.contains("promised view 8") && !out.contains("room"));
    }
}

#[test]
fn messages_of_every_kind_are_shown() {
    let folder = Folder::new();
    let mut met = [0; 8];
    for seed in 1..12 {
        let mut history = History::seeded(seed);
        for _ in 0..20 {
            let message = history.message();
            history.answer(&message);
            folder.put("m", &message);
            let ran = run(&folder, "show --message --json m");
            let good = sprondilu::calls::is_message(&message);
            if !good {
                met[0] += 1;
                ran.refused_json(3);
                continue;
            }
            let told = ran.done().json();
            let kind = told.at(&["message"]).number("kind").expect("a kind") as usize;
            assert_eq!(kind, usize::from(message[0]));
            assert_stamps(told.at(&["message"]), &message);
            met[kind] += 1;
            let out = run(&folder, "show --message m").done().out;
            assert!(out.starts_with(&format!("message {}, ", kind)), "{}", out);
        }
    }
    assert!(met.iter().all(|times| *times > 3), "{:?}", met);
}

/// The stamps of a message, by their places in its bytes.
fn assert_stamps(told: &Value, message: &[u8]) {
    let wide = |place: usize| u64::from_be_bytes(message[place..place + 8].try_into().expect("8"));
    if !matches!(message[0], 5 | 6) {
        assert_eq!(told.stamp(STAMP), Some(wide(1)));
    }
    if message[0] == 2 {
        let retry = Some(wide(14)).filter(|_| message[13] == 4);
        assert_eq!(told.stamp(RETRY), retry);
    }
    for (place, read) in told.list("reads").iter().enumerate() {
        let first = if message[0] == 1 { 12 } else { 13 };
        assert_eq!(read.stamp(VERSION), Some(wide(first + 9 * place)));
    }
}

#[test]
fn replies_of_every_kind_are_shown() {
    let folder = Folder::new();
    let mut met = [0; 8];
    let mut refusals = [0; 12];
    for seed in 1..15 {
        let mut history = History::seeded(seed);
        for _ in 0..20 {
            let message = history.message();
            let (number, reply) = history.answer(&message);
            folder.put("r", &reply);
            let told = run(&folder, "show --reply --json r").done().json();
            let told = told.at(&["reply"]);
            assert_eq!(told.number("number"), Some(u64::from(number)));
            assert_reply(told, &reply);
            met[usize::from(reply[1])] += 1;
            refusals[usize::from(number)] += 1;
            run(&folder, "show --reply r").done();
        }
    }
    assert!(met[1..].iter().all(|times| *times > 3), "{:?}", met);
    assert!(
        refusals[3..11].iter().filter(|times| **times > 0).count() > 5,
        "{:?}",
        refusals
    );
}

/// The fields of a reply, by their places in its bytes.
pub fn assert_reply(told: &Value, reply: &[u8]) {
    let wide = |place: usize| u64::from_be_bytes(reply[place..place + 8].try_into().expect("8"));
    assert_eq!(
        told.text("name"),
        Some(crate::common::NAMES[usize::from(reply[0])])
    );
    if reply[0] != 0 {
        return;
    }
    assert_eq!(told.number("kind"), Some(u64::from(reply[1])));
    assert_eq!(told.number("box"), Some(u64::from(reply[2])));
    assert_eq!(told.number("view"), Some(wide(0) & 0xffff_ffff));
    let (stamp, value) = (wide(8), wide(16));
    if reply[1] <= 4 {
        assert_eq!(told.stamp(STAMP), Some(stamp));
    }
    match reply[1] {
        1 | 2 => assert_prepare(told.at(&["prepare"]), reply[3], value),
        3 | 4 => assert_outcome(told.at(&["outcome"]), reply[3]),
        5 => assert_eq!(told.number("promised_view"), Some(stamp)),
        6 => {}
        _ => {
            let version = Some(stamp).filter(|stamp| *stamp > 0);
            let value = version.map_or(Value::Null, |_| Value::Text(value.to_string()));
            assert_eq!(told.stamp(VERSION), version);
            assert_eq!(told.at(&["value"]), &value);
        }
    }
}

#[test]
fn bad_files_are_refused_with_the_byte() {
    let folder = Folder::new();
    let image = crate::common::boxes::long_table(2);
    folder.put("table", &[&image[..24], &[9], &image[25..]].concat());
    let (reason, byte) = refused(&folder, "show table", 2);
    assert!(byte == Some(24), "{}", reason);
    folder.put("message", &make::read(0, 5));
    assert_eq!(refused(&folder, "show --message message", 3).1, Some(1));
    folder.put("reply", &[1; 24]);
    assert_eq!(refused(&folder, "show --reply reply", 3).1, Some(0));
    for (name, flag) in [
        ("table", "--message"),
        ("table", "--reply"),
        ("reply", "--message"),
    ] {
        refused(&folder, &format!("show {} {}", flag, name), 3);
    }
    refused(&folder, "show message", 2);
}

/// Message 6 is judged for a group as large as its image's.
#[test]
fn a_start_of_any_group_is_shown_and_a_spoiled_one_is_not() {
    let folder = Folder::new();
    let mut dice = Dice::seeded(23);
    for n in [3, 5, 7] {
        let image = settled(&crate::common::fresh(n, 0), 8);
        let message = make::start_view(8, &image);
        folder.put("m", &message);
        let told = run(&folder, "show --json --message m").done().json();
        let header = told.at(&["message", "table", "header"]);
        assert_eq!(header.number("n"), Some(u64::from(n)));
        assert_eq!(header.number("box"), Some(8 % u64::from(n)));
        let spoiled = spoiled(&mut dice, message);
        folder.put("m", &spoiled);
        if !sprondilu::calls::is_message(&spoiled) {
            refused(&folder, "show --message m", 3);
        }
    }
}

#[test]
fn words_that_make_no_sense() {
    let folder = Folder::new();
    folder.put("a", &crate::common::fresh(3, 0));
    bad_usage(&folder, "show", "the file is missing");
    bad_usage(&folder, "show a a", "'a' is one word too many");
    bad_usage(&folder, "show --message --reply a", "--message and --reply");
    bad_usage(&folder, "show --out b a", "there is no option --out");
    bad_usage(&folder, "show --message=a a", "--message takes no value");
    bad_usage(&folder, "show --reply --reply a", "--reply is given twice");
    not_tried(&folder, "show missing", "cannot read missing");
}
