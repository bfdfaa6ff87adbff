//! The replies of boxes, counted: what a library's box answers to messages 1 and 2 is what its count is asked about.

use crate::lent::Lent;
use samples::{message, transactions, Dice, Record, Row, TABLE_BYTES};

/// So often at least the replies of boxes are fast, are slow and are to be waited for.
const LEAST_OF_A_KIND: u64 = 500;

/// Groups of boxes that hear of the same transactions, not all and not in the same order, and whose replies are counted.
pub fn groups(lent: &mut Lent) {
    let mut met = [0; 3];
    for _ in 0..400 {
        let n = lent.dice.one_of(&[3, 5, 7]);
        let mut boxes: Vec<Vec<u8>> = (0..n).map(|box_number| fresh(n, box_number)).collect();
        let transactions = transactions::some(&mut lent.dice);
        for _ in 0..3 * transactions.len() {
            let row = &transactions[lent.dice.index(transactions.len())];
            let records = heard(&mut lent.dice, &mut boxes, row);
            let answer = lent.ask_for(n, &records);
            if answer & 0xff == 0 {
                met[kind(answer)] += 1;
                follow(&mut lent.dice, &mut boxes, row, answer);
            }
        }
    }
    let enough = met.iter().all(|count| *count >= LEAST_OF_A_KIND);
    assert!(enough, "wait, fast and slow: {:?}", met);
}

const WAIT: usize = 0;

/// The kind of an answer numbered 0: 0 wait, 1 fast, 2 slow.
fn kind(answer: u64) -> usize {
    (answer >> 8 & 3) as usize
}

fn fresh(n: u8, box_number: u8) -> Vec<u8> {
    let mut table = vec![0; TABLE_BYTES];
    assert_eq!(boundary::fresh(&mut table, n, box_number), 0);
    table
}

/// A reply to message 1 or 2 as it is counted: its box, its view, the result of its state byte, "1 to 4 tentative OK,
/// ABORT, ABSTAIN, RETRY; 5 to 8 the same, final", and its value, which "is the retry stamp". A refusal is not counted.
pub fn counted(reply: &[u8; 24]) -> Option<Record> {
    let (number, state) = (reply[0], reply[3]);
    let is_final = u8::from(state > 4);
    (number == 0).then(|| Record {
        box_number: reply[2],
        view: u32::from_be_bytes(reply[4..8].try_into().expect("four bytes")),
        result: (
            state - 4 * is_final,
            u64::from_be_bytes(reply[16..].try_into().expect("eight bytes")),
        ),
        is_final,
    })
}

/// The replies to message 1 of the boxes that get it.
fn heard(dice: &mut Dice, boxes: &mut [Vec<u8>], row: &Row) -> Vec<Record> {
    let reached = dice.one_of(&[60, 90, 100]);
    let message = message::propose_prepare(row);
    let mut records = Vec::new();
    for table in boxes {
        if dice.in_a_hundred(reached) {
            records.extend(answered(table, &message));
        }
    }
    dice.shuffle(&mut records);
    records
}

fn answered(table: &mut [u8], message: &[u8]) -> Option<Record> {
    let mut reply = [0; 24];
    boundary::answer(table, message, &mut reply);
    counted(&reply)
}

/// Sends message 2 with the result of an answer numbered 0 to some boxes, and often the outcome too, so that later checks
/// have something to find. One in twenty gets another result.
fn follow(dice: &mut Dice, boxes: &mut [Vec<u8>], row: &Row, answer: u64) {
    if kind(answer) == WAIT {
        return;
    }
    let result = ((answer >> 10 & 7) as u8, answer >> 16);
    let verdict = if result.0 == 1 { 1 } else { 2 };
    let (decided, done) = (dice.in_a_hundred(70), dice.in_a_hundred(50));
    for table in boxes {
        let result = match dice.below(20) {
            0 => (2, 0),
            _ => result,
        };
        if decided && dice.in_a_hundred(60) {
            answered(table, &message::finalise_prepare(row.stamp, 0, result));
        }
        if done && dice.in_a_hundred(80) {
            answered(table, &message::propose_outcome(row, verdict));
            answered(table, &message::finalise_outcome(row.stamp, 0, verdict));
        }
    }
}
