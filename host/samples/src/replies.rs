//! Replies as a coordinator counts them: a list of small records, plain numbers that keep no rule by themselves, and random
//! lists by the rules.

use crate::{Dice, GREATEST_STAMP};

pub const RECORD_LENGTH: usize = 15;

/// "box, view, result with its retry stamp, final or not"
#[derive(Clone, Copy, Debug, PartialEq, Eq)]
pub struct Record {
    pub box_number: u8,
    pub view: u32,
    /// The code of a result and its retry stamp.
    pub result: (u8, u64),
    pub is_final: u8,
}

impl Record {
    pub fn bytes(&self) -> [u8; RECORD_LENGTH] {
        let mut bytes = [0; RECORD_LENGTH];
        bytes[0] = self.box_number;
        bytes[1..5].copy_from_slice(&self.view.to_be_bytes());
        bytes[5] = self.result.0;
        bytes[6..14].copy_from_slice(&self.result.1.to_be_bytes());
        bytes[14] = self.is_final;
        bytes
    }
}

/// The records laid end to end.
pub fn laid(records: &[Record]) -> Vec<u8> {
    let mut bytes = Vec::with_capacity(RECORD_LENGTH * records.len());
    for record in records {
        bytes.extend_from_slice(&record.bytes());
    }
    bytes
}

/// What the boxes of a group answered.
struct Story {
    view: u32,
    /// The result that most boxes gave, and the one that a coordinator made final.
    usual: (u8, u64),
    decided: (u8, u64),
    /// How many in a hundred boxes gave the usual result, and how many hold the final one.
    agree: u64,
    finals: u64,
    /// How many in a hundred of what the boxes hold is final, whatever it is.
    strange: u64,
}

/// A group's n and replies of different boxes in one view, every result by the rules. Boxes agree often, often all of them;
/// final results seldom contradict each other.
pub fn some(dice: &mut Dice) -> (u8, Vec<Record>) {
    let n = dice.one_of(&[3, 5, 7]);
    let story = Story::of(dice);
    let mut boxes: Vec<u8> = (0..n).collect();
    dice.shuffle(&mut boxes);
    let some = dice.index(boxes.len() + 1);
    let missing = usize::from(dice.in_a_hundred(30));
    let heard = dice.one_of(&[some, boxes.len() - missing, boxes.len()]);
    boxes.truncate(heard);
    let answered = |box_number: &u8| story.answer(dice, *box_number);
    let mut records: Vec<Record> = boxes.iter().map(answered).collect();
    // One box often holds a final result against all others.
    if let (Some(last), true) = (records.last_mut(), dice.in_a_hundred(15)) {
        (last.result, last.is_final) = (result(dice), 1);
        dice.shuffle(&mut records);
    }
    (n, records)
}

impl Story {
    fn of(dice: &mut Dice) -> Story {
        let usual = result(dice);
        let other = result(dice);
        let any = dice.below(1 << 32) as u32;
        Story {
            view: dice.one_of(&[0, 1, any, u32::MAX]),
            usual,
            decided: dice.one_of(&[usual, usual, other]),
            agree: dice.one_of(&[0, 50, 90, 100, 100]),
            finals: dice.one_of(&[0, 0, 0, 20, 50]),
            strange: dice.one_of(&[0, 0, 0, 0, 20]),
        }
    }

    fn answer(&self, dice: &mut Dice, box_number: u8) -> Record {
        let decided = dice.in_a_hundred(self.finals);
        let result = if decided {
            self.decided
        } else if dice.in_a_hundred(self.agree) {
            self.usual
        } else {
            result(dice)
        };
        Record {
            box_number,
            view: self.view,
            result,
            is_final: u8::from(decided || dice.in_a_hundred(self.strange)),
        }
    }
}

/// A result with its retry stamp; few different ones, so that boxes agree often, and some that differ in one byte alone.
fn result(dice: &mut Dice) -> (u8, u64) {
    let any = 1 + dice.below(GREATEST_STAMP);
    let far = 1 + (1 << 40);
    let retry = dice.one_of(&[1, 2, far, any, GREATEST_STAMP - 1, GREATEST_STAMP]);
    dice.one_of(&[(1, 0), (1, 0), (2, 0), (3, 0), (4, retry), (4, retry)])
}
