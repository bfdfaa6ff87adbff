//! Reasons: one is found for every refusal.

use crate::common::{History, NO_REASON};
use samples::{message as make, replies, transactions, Dice, Row, Table, TABLE_BYTES};
use sprondilu::calls::Record;
use sprondilu::message::Message;
use sprondilu::reply::Reply;
use sprondilu::{image, reasons};
use std::collections::BTreeMap;

#[test]
fn every_refusal_of_a_box_has_a_reason() {
    let mut met = [0; 12];
    for seed in 1..200 {
        let mut history = History::seeded(seed);
        for _ in 0..60 {
            let message = history.message();
            let before = history.image.clone();
            let (number, _) = history.answer(&message);
            if number == 0 {
                continue;
            }
            let (reason, byte) = reasons::answer::reason(number, &before, &message);
            assert!(!reason.contains(NO_REASON), "{}: {:02x?}", number, message);
            assert_eq!(byte.is_some(), number == 3, "{}", reason);
            met[usize::from(number)] += 1;
        }
    }
    assert!(met[3..11].iter().all(|times| *times > 30), "{:?}", met);
}

/// The result that message 1 got for a new stamp, with the table that it came to and its own stamp and body.
struct Checked {
    before: reference::Rows,
    stamp: u64,
    body: reference::Body,
    result: reference::PrepareResult,
}

impl Checked {
    /// Nothing if another message came, if the stamp was held, or if the box refused.
    fn of(before: &[u8], message: &[u8], number: u8, reply: &[u8]) -> Option<Checked> {
        let before = reference::Table::parse(before)?.0.rows;
        let (stamp, body) = match reference::Message::parse(message)? {
            reference::Message::ProposePrepare { stamp, body } => (stamp, body),
            _ => return None,
        };
        if number != 0 || before.contains_key(&stamp) {
            return None;
        }
        let retry = u64::from_be_bytes(reply[16..24].try_into().expect("eight bytes"));
        let result = reference::PrepareResult::from_code(reply[3], retry).expect("a result");
        Some(Checked {
            before,
            stamp,
            body,
            result,
        })
    }

    /// Which row and register are named, and why they are in the way.
    fn assert_true(&self, found: &reasons::result::InTheWay) -> &'static str {
        use reference::PrepareResult::{Abort, Abstain, Ok, Retry};
        let (row, register) = (&self.before[&found.row.stamp], found.register);
        let states = (row.prepare_byte(), row.outcome_byte());
        assert_eq!((found.row.prepare, found.row.outcome), states);
        if let Some(version) = found.version {
            assert_eq!(self.body.reads.get(&register), Some(&version));
            assert!(row.body.writes.contains_key(&register) && found.row.stamp > version);
        } else {
            let (reads, writes) = (&row.body.reads, &row.body.writes);
            assert!(reads.contains_key(&register) || writes.contains_key(&register));
            assert!(self.body.writes.contains_key(&register) && found.row.stamp > self.stamp);
        }
        let (committed, prepared) = (row.is_committed(), row.is_prepared());
        match (self.result, found.version) {
            (Abort, Some(_)) if committed => "ABORT",
            (Abstain, Some(_)) if prepared => "ABSTAIN, newer",
            (Abstain, None) if prepared => "ABSTAIN, later",
            (Retry(stamp), None) if stamp == found.row.stamp && committed => "RETRY, committed",
            (Retry(stamp), None) if stamp == found.row.stamp && prepared => "RETRY, prepared",
            (Ok | Abort | Abstain | Retry(_), _) => panic!("{:?}: {:?}", self.result, found),
        }
    }
}

/// For every other result than OK a row is found that stands in the way, and for nothing else.
#[test]
fn every_other_result_than_ok_has_a_row_in_the_way() {
    let mut met = BTreeMap::new();
    // Those of every seventh seed have a table with room for one row at most.
    for seed in (1..4_000).filter(|seed| seed % 7 != 0) {
        let mut history = History::seeded(seed);
        for _ in 0..40 {
            let message = history.message();
            let before = history.image.clone();
            let (number, reply) = history.answer(&message);
            if number != 0 {
                continue;
            }
            let table = image::Table::of(&before);
            let said = Reply::of(&reply).expect("a reply");
            let asked = Message::of(&message);
            let found = reasons::result::in_the_way(&table, &asked, &said);
            let words = reasons::result::words(&table, &asked, &said);
            let checked = Checked::of(&before, &message, number, &reply);
            let checked = checked.filter(|one| one.result != reference::PrepareResult::Ok);
            assert_eq!(found.is_some(), checked.is_some(), "{:02x?}", message);
            assert_eq!(words.is_empty(), checked.is_none(), "{}", words);
            assert!(!words.contains(NO_REASON), "{}", words);
            if let (Some(checked), Some(found)) = (checked, found) {
                *met.entry(checked.assert_true(&found)).or_insert(0) += 1;
            }
        }
    }
    assert!(
        met.len() == 5 && met.values().all(|times| *times > 30),
        "{:?}",
        met
    );
}

/// Changing tables of some boxes, most of which might be merged.
fn some_tables(dice: &mut Dice) -> Vec<Table> {
    let n = dice.one_of(&[3, 5, 7]);
    let transactions = transactions::some(dice);
    let many = dice.in_a_hundred(5);
    let heard = n / 2 + dice.one_of(&[0, 1, 1, 1, 1, 1, 1, 2]);
    let table = |box_number: u8| {
        let rows = if many {
            let stamps = (1..=400).map(|step| u64::from(box_number + 1) * 1_000 + step);
            let row = |stamp| Row {
                stamp,
                ..samples::row_of_the_paper(1)
            };
            stamps.map(row).collect()
        } else {
            some_rows(dice, &transactions)
        };
        let mode = u8::from(!dice.in_a_hundred(3));
        let promised = dice.one_of(&[7, 7, 7, 7, 7, 7, 7, 7, 7, 8]);
        Table {
            box_number: if dice.in_a_hundred(3) { 0 } else { box_number },
            n: if dice.in_a_hundred(2) { 7 } else { n },
            mode,
            view: 2,
            promised: if mode == 0 { 2 } else { promised },
            start_rows: 0,
            rows,
        }
    };
    (0..heard).map(table).collect()
}

/// Rows of one box. Now and then it holds another body, or what contradicts the others.
fn some_rows(dice: &mut Dice, transactions: &[Row]) -> Vec<Row> {
    let mut rows = transactions.to_vec();
    rows.retain(|_| dice.in_a_hundred(80));
    for row in &mut rows {
        if dice.in_a_hundred(2) {
            *row = make::with_other_body(dice, row);
        }
        row.prepare = dice.one_of(&[1, 1, 1, 1, 1, 2, 4, 5, 5]);
        row.prepare += u8::from(row.prepare == 5 && dice.in_a_hundred(5));
        row.retry = u64::from(row.prepare == 4) * 9;
        row.outcome = dice.one_of(&[0, 0, 0, 1, 3, 1, 3]);
        row.outcome += u8::from(row.outcome > 0 && dice.in_a_hundred(3));
    }
    rows
}

#[test]
fn every_refused_merge_has_a_reason() {
    let mut dice = Dice::seeded(401);
    let mut met = [0; 12];
    for _ in 0..6_000 {
        let tables = some_tables(&mut dice);
        let images: Vec<Vec<u8>> = tables.iter().map(Table::image).collect();
        let number = reference::merge(&images.concat(), 7, &mut vec![0; TABLE_BYTES]);
        met[usize::from(number)] += 1;
        let named = images
            .iter()
            .enumerate()
            .map(|(place, image)| reasons::merge::Named {
                name: place.to_string(),
                table: image::Table::of(image),
            });
        let named: Vec<_> = named.collect();
        if number != 0 {
            let reason = reasons::merge::reason(number, &named, 7);
            assert!(!reason.contains(NO_REASON), "{}: {:?}", number, tables);
        }
    }
    let given = [met[0], met[5], met[6], met[7], met[11]];
    assert!(given.iter().all(|times| *times > 20), "{:?}", met);
}

/// Replies of boxes, some of which cannot be counted.
fn some_replies(dice: &mut Dice) -> (u8, Vec<samples::Record>) {
    let (n, mut records) = replies::some(dice);
    if let (Some(last), true) = (records.last_mut(), dice.in_a_hundred(10)) {
        match dice.index(4) {
            0 => last.box_number = dice.one_of(&[0, 3, 7]),
            1 => last.view ^= 1,
            2 => last.result.0 = dice.one_of(&[0, 5]),
            _ => last.result.1 ^= 1,
        }
    }
    (dice.one_of(&[n, n, n, n, n, n, n, n, n, 4]), records)
}

fn named(place: usize, record: &samples::Record) -> reasons::count::Named {
    reasons::count::Named {
        name: place.to_string(),
        confirms: false,
        record: Record {
            box_number: record.box_number,
            result: record.result.0,
            is_final: record.is_final,
            view: record.view,
            retry: record.result.1,
        },
    }
}

#[test]
fn every_refused_count_has_a_reason() {
    let mut dice = Dice::seeded(402);
    let mut met = [0; 12];
    for _ in 0..20_000 {
        let (n, records) = some_replies(&mut dice);
        let number = (reference::count(n, &replies::laid(&records)) & 0xff) as u8;
        met[usize::from(number)] += 1;
        let counted = records.iter().enumerate();
        let counted: Vec<_> = counted.map(|(place, one)| named(place, one)).collect();
        if number != 0 {
            let reason = reasons::count::reason(number, n, &counted);
            assert!(!reason.contains(NO_REASON), "{}: {:?}", number, records);
        }
    }
    assert!(
        [met[0], met[3], met[6]].iter().all(|times| *times > 500),
        "{:?}",
        met
    );
}
