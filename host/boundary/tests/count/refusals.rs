//! Refusals at once: a list that would wait, be fast, be slow or be a contradiction, with none, one, two or three causes of
//! 3 in it. Which number wins is worked out here as well, from the paper's order alone: 3 comes before 6.

use crate::lent::Lent;
use samples::replies::{self, laid};
use samples::{Dice, Record, GREATEST_STAMP};

/// A list with its n, which are changed so that a rule is broken.
struct Asked {
    n: u8,
    records: Vec<Record>,
    /// Bytes behind the last whole record.
    rest: Vec<u8>,
    /// Whether two finals were made unequal.
    contradicts: bool,
}

/// Each breaks one rule of 3, wherever chance has it.
const CAUSES: [fn(&mut Dice, &mut Asked); 8] = [
    bad_n,
    bad_length,
    box_outside,
    box_twice,
    unequal_views,
    bad_code,
    bad_retry,
    bad_final,
];

/// Every set of at most three causes, in many lists.
pub fn all_sets(lent: &mut Lent) {
    for set in 0..1 << CAUSES.len() {
        let chosen = (0..CAUSES.len()).filter(|cause| set & (1 << cause) != 0);
        let chosen: Vec<usize> = chosen.collect();
        if chosen.len() <= 3 {
            (0..2_000).for_each(|_| asked(lent, &chosen));
        }
    }
}

fn asked(lent: &mut Lent, causes: &[usize]) {
    let mut asked = list(&mut lent.dice);
    for cause in causes {
        CAUSES[*cause](&mut lent.dice, &mut asked);
    }
    let bytes = [laid(&asked.records), asked.rest].concat();
    let number = lent.ask(asked.n, &bytes) & 0xff;
    let right = match (causes.is_empty(), asked.contradicts) {
        (false, _) => number == 3,
        (true, true) => number == 6,
        (true, false) => number != 3,
    };
    assert!(right, "number {}, {:?}", number, causes);
}

/// A list by the rules with two replies at least. In a third of them two finals contradict each other.
fn list(dice: &mut Dice) -> Asked {
    let (n, mut records) = loop {
        let (n, records) = replies::some(dice);
        if records.len() >= 2 {
            break (n, records);
        }
    };
    let contradicts = dice.in_a_hundred(30);
    if contradicts {
        let last = records.len() - 1;
        (records[0].result, records[0].is_final) = ((1, 0), 1);
        (records[last].result, records[last].is_final) = ((4, 9), 1);
    }
    Asked {
        n,
        records,
        rest: Vec::new(),
        contradicts,
    }
}

fn one<'a>(dice: &mut Dice, asked: &'a mut Asked) -> &'a mut Record {
    let place = dice.index(asked.records.len());
    &mut asked.records[place]
}

fn bad_n(dice: &mut Dice, asked: &mut Asked) {
    asked.n = dice.one_of(&[0, 1, 2, 4, 6, 8, 9, 127, 128, 255]);
}

fn bad_length(dice: &mut Dice, asked: &mut Asked) {
    let more = 1 + dice.index(14);
    let other = asked.records[0].bytes();
    asked.rest = dice.one_of(&[other, [0; 15]])[..more].to_vec();
}

fn box_outside(dice: &mut Dice, asked: &mut Asked) {
    let n = asked.n;
    one(dice, asked).box_number = dice.one_of(&[n, n.saturating_add(1), 8, 128, 255]).max(7);
    // A box that is just outside, where n is still that of the group.
    if matches!(n, 3 | 5) && dice.in_a_hundred(50) {
        one(dice, asked).box_number = n;
    }
}

fn box_twice(dice: &mut Dice, asked: &mut Asked) {
    let mut places: Vec<usize> = (0..asked.records.len()).collect();
    dice.shuffle(&mut places);
    asked.records[places[0]].box_number = asked.records[places[1]].box_number;
}

fn unequal_views(dice: &mut Dice, asked: &mut Asked) {
    let bit = dice.below(32);
    one(dice, asked).view ^= 1 << bit;
}

fn bad_code(dice: &mut Dice, asked: &mut Asked) {
    one(dice, asked).result.0 = dice.one_of(&[0, 5, 6, 8, 129, 255]);
}

fn bad_retry(dice: &mut Dice, asked: &mut Asked) {
    let stamps = [1, GREATEST_STAMP, GREATEST_STAMP + 1, 1 << 63, u64::MAX];
    let other = 1 + dice.below(3) as u8;
    let for_another = (other, dice.one_of(&stamps));
    let for_retry = (4, dice.one_of(&[0, stamps[2], stamps[3], stamps[4]]));
    one(dice, asked).result = dice.one_of(&[for_another, for_retry]);
}

fn bad_final(dice: &mut Dice, asked: &mut Asked) {
    one(dice, asked).is_final = dice.one_of(&[2, 3, 4, 128, 129, 254, 255]);
}
