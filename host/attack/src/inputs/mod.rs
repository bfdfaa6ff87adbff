//! What the calls are given. Each of these functions is one kind of round: it goes on for some hundred calls or for a few
//! long ones, by its dice alone.

mod alterations;
mod boxes;
mod groups;
mod lists;
mod runs;
mod tables;

use crate::both::{Both, Difference};
use samples::{damage, Dice, Table, TABLE_BYTES};

/// A round of one kind.
pub type Kind = fn(&mut Both, &mut Dice) -> Result<(), Difference>;

/// The kinds of rounds, in turns.
pub const KINDS: [(&str, Kind); 12] = [
    ("messages to one box", boxes::history),
    ("messages to one box, altered", boxes::spoilt_history),
    ("a box that is full or nearly so", boxes::full),
    ("fresh tables", boxes::fresh),
    ("tables, whole and damaged", tables::damaged),
    ("tables cut and put together anew", tables::spliced),
    ("a group and its merges", groups::group),
    ("tables that clash often, merged", runs::clashing),
    ("merges of damaged tables", runs::damaged),
    ("merges of many rows", runs::large),
    ("replies that are counted", lists::replies),
    ("bytes that nobody wrote", tables::anything),
];

/// A table or output buffer: nearly always long enough, of several lengths; seldom too short.
fn table_length(dice: &mut Dice) -> usize {
    let longer = TABLE_BYTES + dice.index(5_000);
    let usual = dice.one_of(&[TABLE_BYTES, TABLE_BYTES, TABLE_BYTES + 1, longer]);
    let shorter = dice.index(TABLE_BYTES);
    match dice.index(100) {
        0 => dice.one_of(&[0, 1, 24, TABLE_BYTES - 1, shorter]),
        _ => usual,
    }
}

fn reply_length(dice: &mut Dice) -> usize {
    let shorter = dice.index(24);
    match dice.index(100) {
        0 => dice.one_of(&[0, 1, 23, shorter]),
        _ => dice.one_of(&[24, 24, 25, 100]),
    }
}

/// Any bytes but zeros, so that clearing is seen.
fn dirt(dice: &mut Dice, length: usize) -> Vec<u8> {
    let first = dice.byte();
    let byte = |place: usize| first.wrapping_add(place as u8 * 7).max(1);
    (0..length).map(byte).collect()
}

/// A buffer that begins with these bytes, as far as it goes, with dirt behind them.
fn buffer(dice: &mut Dice, bytes: &[u8], length: usize) -> Vec<u8> {
    let mut buffer = dirt(dice, length);
    let held = bytes.len().min(length);
    buffer[..held].copy_from_slice(&bytes[..held]);
    buffer
}

/// The answer to a message by a table buffer, with any reply buffer.
fn ask(
    both: &mut Both,
    dice: &mut Dice,
    table: &mut [u8],
    message: &[u8],
) -> Result<u64, Difference> {
    let length = reply_length(dice);
    let mut reply = dirt(dice, length);
    both.answer(dice, table, message, &mut reply)
}

/// Every kind of damage to a table of three rows or more, of which one sample in so many is taken.
fn damaged(dice: &mut Dice, table: &Table, one_in: usize) -> Vec<Vec<u8>> {
    let mut taken = Vec::new();
    let mut place = dice.index(one_in);
    damage::all(dice, table, &mut |_, bytes| {
        place += 1;
        if place % one_in == 0 {
            taken.push(bytes.to_vec());
        }
    });
    taken
}

/// The image that a buffer begins with, if it is one.
fn image(buffer: &[u8]) -> Option<&[u8]> {
    reference::Table::parse(buffer).map(|(_, length)| &buffer[..length])
}
