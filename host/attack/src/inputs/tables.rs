//! Bytes that may be a table or not: they are judged, and they are lent as a table to a message.

use super::alterations::altered;
use super::{ask, buffer, table_length};
use crate::both::{Both, Difference};
use samples::{damage, kinds, random, Dice, Table};

/// The bytes are judged as they are; and a box whose buffer begins with them is told something.
fn judge(both: &mut Both, dice: &mut Dice, bytes: &[u8], message: &[u8]) -> Result<(), Difference> {
    both.valid(dice, bytes)?;
    let length = table_length(dice);
    let mut table = buffer(dice, bytes, length);
    ask(both, dice, &mut table, message).map(drop)
}

/// A message of any kind about a table that has rows.
pub fn message_about(dice: &mut Dice, table: &Table) -> Vec<u8> {
    let mut messages = kinds::messages(dice, table);
    messages.swap_remove(dice.index(messages.len()))
}

/// A table with every kind of damage.
pub fn damaged(both: &mut Both, dice: &mut Dice) -> Result<(), Difference> {
    let rows = dice.one_of(&[3, 3, 4, 5, 8, 30]);
    let table = random::table(dice, rows);
    let one_in = dice.one_of(&[7, 31, 97]);
    for bytes in super::damaged(dice, &table, one_in) {
        let message = message_about(dice, &table);
        judge(both, dice, &bytes, &message)?;
    }
    Ok(())
}

/// Two images, each cut somewhere, often where a row begins, and one part laid behind the other; then altered or not.
pub fn spliced(both: &mut Both, dice: &mut Dice) -> Result<(), Difference> {
    let rows = 1 + dice.index(12);
    let (one, other) = (random::table(dice, rows), random::table(dice, rows));
    let (first, second) = (one.image(), other.image());
    for _ in 0..60 {
        let (begin, end) = (cut(dice, first.len()), cut(dice, second.len()));
        let mut bytes = [&first[..begin], &second[end..]].concat();
        if dice.in_a_hundred(30) {
            // The header of the other table, which fits as many rows.
            bytes = [&second[..24], &first[24..]].concat();
        }
        if dice.in_a_hundred(50) {
            bytes = altered(dice, &bytes);
        }
        let message = message_about(dice, &one);
        judge(both, dice, &bytes, &message)?;
    }
    Ok(())
}

fn cut(dice: &mut Dice, length: usize) -> usize {
    let any = dice.index(length + 1);
    dice.one_of(&[any, any / 24 * 24])
}

/// Bytes that nobody wrote, and headers of likely numbers with anything behind them, lent to every call but fresh.
pub fn anything(both: &mut Both, dice: &mut Dice) -> Result<(), Difference> {
    for _ in 0..60 {
        let mut bytes = Vec::new();
        let mut take = |_: &str, sample: &[u8]| bytes = sample.to_vec();
        match dice.index(2) {
            0 => damage::random_bytes(dice, &mut take),
            _ => damage::likely_headers(dice, &mut take),
        }
        let length = dice.index(100);
        let message = dice.bytes(length);
        judge(both, dice, &bytes, &message)?;
        let view = dice.one_of(&[0, 1, 2]);
        let length = table_length(dice);
        let mut out = buffer(dice, &[], length);
        both.merge(dice, &bytes, view, &mut out)?;
        let n = dice.one_of(&[3, 5, 7, 0, 4, 255]);
        both.count(dice, n, &bytes)?;
    }
    Ok(())
}
