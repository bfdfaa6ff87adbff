//! Lists of replies for the count.

use super::alterations::altered;
use crate::both::{Both, Difference};
use samples::replies::{self, laid};
use samples::Dice;

/// Lists by the rules, with a reply more or less or twice, for any n, and altered.
pub fn replies(both: &mut Both, dice: &mut Dice) -> Result<(), Difference> {
    for _ in 0..100 {
        let (n, mut records) = replies::some(dice);
        let bytes = laid(&records);
        both.count(dice, n, &bytes)?;
        dice.shuffle(&mut records);
        both.count(dice, n, &laid(&records))?;
        let (_, more) = replies::some(dice);
        records.extend(more);
        both.count(dice, n, &laid(&records))?;
        let any = dice.byte();
        let other = dice.one_of(&[3, 5, 7, 0, 4, 6, 8, any]);
        both.count(dice, other, &bytes)?;
        let spoilt = altered(dice, &bytes);
        both.count(dice, n, &spoilt)?;
    }
    Ok(())
}
