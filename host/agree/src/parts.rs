//! The parts that cases are made of.

use reference::{Body, Outcome, PrepareResult};
use samples::Dice;
use std::collections::BTreeMap;

/// The body of a stamp in a season: the same in every table, and another in every season.
pub fn body_of(season: u64, stamp: u64) -> Body {
    let mut dice = Dice::seeded(64 * season + stamp);
    // Versions are often stamps of other rows: then it matters whether an inequality is strict.
    let reads = accesses(&mut dice, |dice| {
        (3 * dice.below(stamp / 3 + 1)).min(stamp - 1)
    });
    let mut writes = accesses(&mut dice, |dice| dice.below(1_000));
    if reads.is_empty() && writes.is_empty() {
        writes.insert(1, stamp);
    }
    Body { reads, writes }
}

/// Some of the registers, each with a number.
fn accesses(dice: &mut Dice, number: impl Fn(&mut Dice) -> u64) -> BTreeMap<u8, u64> {
    let mut accesses = BTreeMap::new();
    for register in [0, 1, 63] {
        if dice.in_a_hundred(40) {
            accesses.insert(register, number(dice));
        }
    }
    accesses
}

/// A result; OK is what half of the choices lead to.
pub fn result(dice: &mut Dice, choice: u64) -> PrepareResult {
    match choice % 4 {
        0 | 1 => PrepareResult::Ok,
        2 => [PrepareResult::Abort, PrepareResult::Abstain][dice.below(2) as usize],
        _ => PrepareResult::Retry(20 + dice.below(2)),
    }
}

/// The outcome of a stamp, which differs from the usual one now and then.
pub fn outcome(dice: &mut Dice, stamp: u64) -> Outcome {
    let side = stamp + u64::from(dice.in_a_hundred(5));
    [Outcome::Commit, Outcome::Abort][(side % 2) as usize]
}
