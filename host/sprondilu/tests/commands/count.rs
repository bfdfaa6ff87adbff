//! `count`

use crate::common::json::{Value, RETRY, STAMP as STAMP_NAMES};
use crate::common::ran::{bad_usage, not_tried, refused};
use crate::common::{run, Folder};
use samples::{replies, Dice, Record};

const STAMP: u64 = 65_537;

/// The reply of 24 bytes in which a box gives this result, final to message 2 and tentative or final to message 1.
fn reply(record: &Record, kind: u8) -> Vec<u8> {
    let (result, retry) = record.result;
    let state = result + 4 * record.is_final;
    let mut bytes = vec![0, kind, record.box_number, state];
    bytes.extend(record.view.to_be_bytes());
    bytes.extend(STAMP.to_be_bytes());
    bytes.extend(retry.to_be_bytes());
    bytes
}

/// Writes the replies to files and hands back their names, as words of a line.
fn put(folder: &Folder, records: &[Record]) -> String {
    let mut names = String::new();
    for (place, record) in records.iter().enumerate() {
        let name = format!("r{}", place);
        folder.put(&name, &reply(record, 1 + record.is_final));
        names += &format!(" {}", name);
    }
    names
}

/// Random lists of replies: the count is that of the second program.
#[test]
fn counts_are_those_of_the_second_program() {
    let mut dice = Dice::seeded(71);
    let mut met = [0; 5];
    let folder = Folder::new();
    for _ in 0..400 {
        let (n, records) = replies::some(&mut dice);
        let line = format!("count --n {}{}", n, put(&folder, &records));
        let expected = reference::count(n, &replies::laid(&records));
        match (expected & 0xff) as u8 {
            0 => {
                let told = run(&folder, &format!("{} --json", line)).done().json();
                assert_counted(&told, expected, &records);
                met[(expected >> 8 & 3) as usize] += 1;
            }
            number => {
                refused(&folder, &line, number);
                met[4] += 1;
            }
        }
    }
    assert!(
        [met[0], met[1], met[2], met[4]]
            .iter()
            .all(|times| *times > 20),
        "{:?}",
        met
    );
}

/// The second program's coded answer, in the words for a program.
fn assert_counted(told: &Value, expected: u64, records: &[Record]) {
    assert_eq!(told.number("number"), Some(0));
    let replies = told.list("replies").iter().map(|reply| reply.stamp(RETRY));
    let (is_retry, retries) = (|record: &Record| record.result.0 == 4, records.iter());
    assert!(replies.eq(retries.map(|record| Some(record.result.1).filter(|_| is_retry(record)))));
    let finals = records.iter().filter(|record| record.is_final == 1);
    assert_eq!(told.number("confirmations"), Some(finals.count() as u64));
    let kind = ["wait", "fast", "slow"][(expected >> 8 & 3) as usize];
    assert_eq!(told.text("answer"), Some(kind));
    // Rule 4: "only on the fast count, or on confirmations (number 0) of message 2 by f+1 different boxes, in one view"
    let quorum = told.number("quorum").expect("f+1");
    let confirmed = told.number("confirmations") >= Some(quorum);
    assert_eq!(
        told.at(&["may_declare"]),
        &Value::Bool(kind == "fast" || confirmed)
    );
    let (code, about) = (expected >> 10 & 7, told.stamp(STAMP_NAMES));
    assert_eq!(
        about,
        if records.is_empty() {
            None
        } else {
            Some(STAMP)
        }
    );
    if kind == "wait" {
        assert_eq!(told.at(&["result"]), &Value::Null);
        assert_eq!(told.stamp(RETRY), None);
        return;
    }
    let name = ["OK", "ABORT", "ABSTAIN", "RETRY"][code as usize - 1];
    assert_eq!(told.text("result"), Some(name));
    let retry = Some(expected >> 16).filter(|_| code == 4);
    assert_eq!(told.stamp(RETRY), retry);
}

fn record(box_number: u8, state: u8, retry: u64) -> Record {
    Record {
        box_number,
        view: 3,
        result: ((state - 1) % 4 + 1, retry),
        is_final: u8::from(state > 4),
    }
}

/// What stands behind every OK, in a group of three.
const NOT_YET: &str = "\nan OK that is declared will be recorded, if the handset lives; it is recorded once 2 boxes have accepted its \
    commit in one view, and not before\n";

/// What a person is told, and what may be done then.
#[test]
fn a_count_that_a_user_types() {
    let folder = Folder::new();
    let all = put(
        &folder,
        &[record(0, 1, 0), record(1, 1, 0), record(2, 1, 0)],
    );
    let said = |line: &str| run(&folder, line).done().out;
    let out = said("count --n 3 r0");
    assert!(
        out.contains("1 reply of 3 boxes: wait: 2 are a quorum"),
        "{}",
        out
    );
    let out = said("count --n 3 r0 r1");
    assert!(out.contains("2 replies of 3 boxes: slow OK"), "{}", out);
    assert!(out.ends_with(NOT_YET), "{}", out);
    let out = said(&format!("count --n 3{}", all));
    assert!(out.contains("r2: box 2 in view 3: tentative OK"), "{}", out);
    assert!(out.contains("3 replies of 3 boxes: fast OK"), "{}", out);
    assert!(out.ends_with(NOT_YET), "{}", out);
    assert!(said("count --n 3").contains("0 replies of 3 boxes: wait"));
    // A box that refused is named and not counted.
    let mut refusal = [0; 24];
    refusal[0] = 4;
    folder.put("no", &refusal);
    let out = said("count --n 3 r0 no");
    assert!(
        out.contains("no: not counted: the box refused with 4 changing"),
        "{}",
        out
    );
    assert!(out.contains("1 reply of 3 boxes: wait"), "{}", out);
    assert!(!out.contains("recorded"), "{}", out);
    let told = run(&folder, "count --json --n 3 no r0").done().json();
    assert_eq!(told.list("left_out")[0].text("file"), Some("no"));
    assert_eq!(told.list("left_out")[0].number("number"), Some(4));
}

/// Confirmations of message 2 by a quorum.
#[test]
fn a_count_of_confirmations() {
    let folder = Folder::new();
    let said = |line: &str| run(&folder, line).done().out;
    put(&folder, &[record(0, 8, 9), record(1, 8, 9)]);
    let out = said("count --n 3 r0 r1");
    let confirmed = "2 replies of 3 boxes: 2 have confirmed final RETRY 0:9 in this view: it may be declared final\n";
    assert!(out.ends_with(confirmed), "{}", out);
    put(&folder, &[record(0, 5, 0), record(1, 5, 0)]);
    let out = said("count --n 3 r0 r1");
    assert!(out.contains("2 have confirmed final OK"), "{}", out);
    assert!(out.ends_with(NOT_YET), "{}", out);
}

/// The files with replies that cannot be counted, or not with one another.
fn put_bad(folder: &Folder) {
    let four = [0, 1, 2, 3].map(|box_number| record(box_number, 1, 0));
    put(folder, &four);
    folder.put("twice", &reply(&record(0, 2, 0), 1));
    let mut view = record(1, 1, 0);
    view.view = 4;
    folder.put("view", &reply(&view, 1));
    folder.put("ok", &reply(&record(1, 5, 0), 2));
    folder.put("abort", &reply(&record(2, 6, 0), 2));
    folder.put("four", &reply(&record(4, 6, 0), 2));
    folder.put("short", &folder.bytes("r0")[..23]);
    folder.put("none", &[0; 24]);
    let mut retry = reply(&record(1, 1, 0), 1);
    retry[23] = 1;
    folder.put("retry", &retry);
}

/// "Bad n, a box outside the group or twice, unequal views or a bad result: 3. Two unequal finals, or a fast count for a result
/// other than a final one: 6."
#[test]
fn refusals() {
    let folder = Folder::new();
    put_bad(&folder);
    for (words, number, says) in [
        ("--n 4 r0", 3, "n is 4"),
        ("--n 0", 3, "n is 0"),
        ("--n 3 r0 r3", 3, "r3 is of box 3"),
        ("--n 3 r0 twice", 3, "both of box 0"),
        ("--n 5 r0 r0", 3, "both of box 0"),
        ("--n 3 r0 view", 3, "view 4"),
        ("--n 3 r0 short", 3, "at byte 23"),
        ("--n 3 none", 3, "at byte 1"),
        ("--n 3 retry", 3, "at byte 16"),
        ("--n 3 ok abort", 6, "final ABORT"),
        ("--n 5 r0 r1 r2 r3 four", 6, "a fast count of boxes says OK"),
    ] {
        let (reason, _) = refused(&folder, &format!("count {}", words), number);
        assert!(reason.contains(says), "{}: {}", words, reason);
    }
}

#[test]
fn words_that_make_no_sense() {
    let folder = Folder::new();
    put(&folder, &[record(0, 1, 0)]);
    let mut other = reply(&record(1, 1, 0), 1);
    other[15] = 9;
    folder.put("other", &other);
    folder.put(
        "outcome",
        &[
            &[0, 3, 1, 1, 0, 0, 0, 3, 0, 0, 0, 0, 0, 1, 0, 1][..],
            &[0; 8],
        ]
        .concat(),
    );
    for (line, words) in [
        ("count", "--n is missing"),
        ("count r0", "--n is missing"),
        ("count --n 256 r0", "'256'"),
        ("count --n 3 --n 3 r0", "--n is given twice"),
        ("count --n 3 --reply r0", "there is no option --reply"),
        ("count --n 3 r0 other", "replies for one stamp are counted"),
        ("count --n 3 r0 outcome", "a reply to message 3"),
    ] {
        bad_usage(&folder, line, words);
    }
    not_tried(&folder, "count --n 3 no", "cannot read no");
}
