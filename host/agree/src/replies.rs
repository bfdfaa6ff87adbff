//! Lists of replies for the coordinator.

use crate::case::Case;
use crate::parts::result;
use reference::PrepareResult;
use samples::{Dice, Record};

/// Replies of some boxes or all, with a repeated or strange box, another view or a bad retry stamp now and then.
pub fn count(dice: &mut Dice) -> Case {
    let n = [3, 5, 7, 5, 7, 4][dice.below(6) as usize];
    let all = u64::from(n);
    let length = [dice.below(all), all][dice.below(2) as usize];
    let usual = dice.below(4);
    let often = [70, 95][dice.below(2) as usize];
    let mut replies: Vec<Record> = (0..length)
        .map(|place| reply(dice, place, usual, often))
        .collect();
    // The last box of the group often holds against the others.
    if let (Some(last), true) = (replies.last_mut(), dice.in_a_hundred(40)) {
        last.result = coded(result(dice, usual + 2));
        last.is_final = 1;
    }
    Case::count(n, replies)
}

/// The reply of a box, which has the usual result so often in a hundred.
fn reply(dice: &mut Dice, place: u64, usual: u64, often: u64) -> Record {
    let odd = |dice: &mut Dice| u64::from(dice.in_a_hundred(1));
    let choice = [dice.below(4), usual][usize::from(dice.in_a_hundred(often))];
    Record {
        box_number: (place + odd(dice)) as u8,
        view: odd(dice) as u32,
        result: match dice.below(80) {
            0 => coded(PrepareResult::Retry(0)),
            _ => coded(result(dice, choice)),
        },
        is_final: u8::from(dice.in_a_hundred(10)),
    }
}

fn coded(result: PrepareResult) -> (u8, u64) {
    (result.code(), result.retry_stamp())
}
