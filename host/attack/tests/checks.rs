//! The attack has teeth where a check is made: boxes that check messages 1 otherwise than document 02 has it, and a merge
//! that does not keep the check of document 01.

mod common;
use attack::calls::LIBRARY;
use attack::Calls;
use common::{assert_found, found};
use reference::{proposal_check, Body, Message, PrepareResult, Row, Rows, Table};

const HEADER_LENGTH: usize = 24;
const ROW_LENGTH: usize = 24;

/// Puts another result into a row of an image, which stands behind so many others.
fn put(image: &mut [u8], index: usize, prepare: u8, result: PrepareResult) {
    let row = &mut image[HEADER_LENGTH + ROW_LENGTH * index..];
    row[8..16].copy_from_slice(&result.retry_stamp().to_be_bytes());
    row[22] = prepare;
}

/// The library, but that a new stamp is checked in another way: what it says and stores of the result is put over.
fn answered_by(
    check: impl Fn(&Rows, u64, &Body) -> PrepareResult,
    table: &mut [u8],
    message: &[u8],
    reply: &mut [u8],
) -> u64 {
    let before = Table::parse(table);
    let word = boundary::answer_word(table, message, reply);
    let (rows, stamp, body) = match (before, Message::parse(message)) {
        (Some((before, _)), Some(Message::ProposePrepare { stamp, body })) => {
            (before.rows, stamp, body)
        }
        _ => return word,
    };
    if word as u8 == 0 && !rows.contains_key(&stamp) {
        let result = check(&rows, stamp, &body);
        put(table, rows.range(..stamp).count(), result.code(), result);
        reply[3] = result.code();
        reply[16..24].copy_from_slice(&result.retry_stamp().to_be_bytes());
    }
    word
}

/// The two rules of one row, and whose stamp RETRY has.
struct Rules {
    /// Of a write at w of what was read at v, by v, w and s.
    stale: fn(u64, u64, u64) -> bool,
    /// Of a later row, and a register that is written.
    in_the_way: fn(&Row, &u8) -> bool,
    /// Of a row that is in the way.
    named: fn(&Row) -> bool,
}

/// As document 02 has them.
const RULES: Rules = Rules {
    stale: |v, w, _| v < w,
    in_the_way: |row, k| row.body.reads.contains_key(k) || row.body.writes.contains_key(k),
    named: |row| row.is_committed() || row.is_prepared(),
};

/// Rules by the number that names them in a type, each with what is wrong about it.
const FAULTS: [(&str, Rules); 6] = [
    ("nothing", RULES),
    (
        "A with w < s",
        Rules {
            stale: |v, w, s| v < w && w < s,
            ..RULES
        },
    ),
    (
        "A at the version",
        Rules {
            stale: |v, w, _| v <= w,
            ..RULES
        },
    ),
    (
        "B of readers alone",
        Rules {
            in_the_way: |row, k| row.body.reads.contains_key(k),
            ..RULES
        },
    ),
    (
        "B of writers alone",
        Rules {
            in_the_way: |row, k| row.body.writes.contains_key(k),
            ..RULES
        },
    ),
    (
        "RETRY with the stamp of a committed row alone",
        Rules {
            named: Row::is_committed,
            ..RULES
        },
    ),
];

/// The check by these rules.
fn checked_by(rules: &Rules, rows: &Rows, s: u64, body: &Body) -> PrepareResult {
    let is_a = |(w, row): (&u64, &Row)| {
        let written = |k: &u8| row.body.writes.contains_key(k);
        let mut reads = body.reads.iter();
        reads.any(|(k, v)| written(k) && (rules.stale)(*v, *w, s))
    };
    let is_b = |(other, row): (&u64, &Row)| {
        *other > s && body.writes.keys().any(|k| (rules.in_the_way)(row, k))
    };
    let committed = || rows.iter().filter(|(_, row)| row.is_committed());
    if committed().any(is_a) {
        return PrepareResult::Abort;
    }
    if committed().any(is_b) {
        let named = rows.iter().filter(|(_, row)| (rules.named)(row));
        let stamps = named.filter(|held| is_b(*held)).map(|(stamp, _)| *stamp);
        return PrepareResult::Retry(stamps.max().expect("a committed one is among them"));
    }
    let mut prepared = rows.iter().filter(|(_, row)| row.is_prepared());
    match prepared.any(|held| is_a(held) || is_b(held)) {
        true => PrepareResult::Abstain,
        false => PrepareResult::Ok,
    }
}

/// The library, but that a new stamp is checked by rules that have a fault.
fn checking_by<const FAULT: usize>() -> Calls {
    Calls {
        answer_word: |table, message, reply| {
            let rules = &FAULTS[FAULT].1;
            let check = |rows: &Rows, s: u64, body: &Body| checked_by(rules, rows, s, body);
            answered_by(check, table, message, reply)
        },
        ..LIBRARY
    }
}

#[test]
fn a_box_that_checks_as_document_02_has_it_is_not_taken_for_faulty() {
    assert_eq!(found(checking_by::<0>()), None);
}

#[test]
fn a_box_that_checks_messages_1_otherwise_is_found() {
    let faulty = [
        checking_by::<1>(),
        checking_by::<2>(),
        checking_by::<3>(),
        checking_by::<4>(),
        checking_by::<5>(),
    ];
    for ((fault, _), calls) in FAULTS[1..].iter().zip(faulty) {
        assert_found(fault, calls, Some("table"));
    }
    let older = Calls {
        answer_word: |table, message, reply| answered_by(reference::check, table, message, reply),
        ..LIBRARY
    };
    assert_found("the check of document 01", older, Some("table"));
}

/// The library, but that a merge refuses what a box would refuse for a committed row, if it has checked it.
fn merged_in_the_days_order(run: &[u8], view: u32, out: &mut [u8]) -> u8 {
    let number = boundary::merge(run, view, out);
    if number > 0 {
        return number;
    }
    let (table, _) = Table::parse(out).expect("a merged table");
    let committed = table.rows.iter().filter(|(_, row)| row.is_committed());
    let committed: Rows = committed.map(|(s, row)| (*s, row.clone())).collect();
    for (index, (stamp, row)) in table.rows.iter().enumerate() {
        let result = proposal_check(&committed, *stamp, &row.body);
        let is_prepared = row.is_prepared();
        if is_prepared && result != PrepareResult::Ok {
            put(out, index, result.code() + 4, result);
        }
    }
    number
}

#[test]
fn a_merge_that_checks_as_boxes_do_is_found() {
    let newer = Calls {
        merge: merged_in_the_days_order,
        ..LIBRARY
    };
    assert_found("the check for messages 1 in a merge", newer, Some("output"));
}
