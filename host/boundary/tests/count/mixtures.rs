//! Random lists of replies by the rules, and lists that are a little longer than the rules allow.

use crate::lent::Lent;
use samples::{replies, Dice, Record};

/// Many lists, each of them backwards and in any other order too.
pub fn many(lent: &mut Lent) {
    for turn in 0..100_000 {
        let (n, mut records) = replies::some(&mut lent.dice);
        let answer = lent.ask_for(n, &records);
        records.reverse();
        let backwards = lent.ask_for(n, &records);
        lent.dice.shuffle(&mut records);
        let shuffled = lent.ask_for(n, &records);
        let same = answer == backwards && answer == shuffled;
        assert!(same, "another order, another answer: {:?}", records);
        if turn % 8 == 0 {
            for other in 0..=9 {
                lent.ask_for(other, &records);
            }
        }
    }
}

/// Lists with one to four replies more, up to nine or so: of boxes that are there already, of boxes outside, of boxes that
/// were missing. "Counting one box twice among the f+1": the answer without the box is often fast or slow.
pub fn with_more(lent: &mut Lent) {
    for _ in 0..60_000 {
        let (n, mut records) = replies::some(&mut lent.dice);
        for _ in 0..1 + lent.dice.index(4) {
            let record = one_more(&mut lent.dice, n, &records);
            records.push(record);
        }
        let answer = lent.ask_for(n, &records);
        lent.dice.shuffle(&mut records);
        assert_eq!(lent.ask_for(n, &records), answer, "{:?}", records);
    }
}

fn one_more(dice: &mut Dice, n: u8, records: &[Record]) -> Record {
    let known = match records.len() {
        0 => return first(),
        length => records[dice.index(length)],
    };
    let last = records[records.len() - 1].box_number;
    Record {
        box_number: dice.one_of(&[known.box_number, last.wrapping_add(1), n - 1, n, 255]),
        view: known.view ^ u32::from(dice.in_a_hundred(5)),
        ..known
    }
}

fn first() -> Record {
    Record {
        box_number: 0,
        view: 0,
        result: (1, 0),
        is_final: 0,
    }
}
