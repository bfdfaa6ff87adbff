//! Bytes altered with an eye to what they are: numbers of 1, 4 and 8 bytes about the limits of the paper, parts of 9, 15 and
//! 24 bytes taken out, put in twice or exchanged, bytes cut off and added.

use samples::{Dice, GREATEST_STAMP};

/// As long as a row, as an access, as a record of a count, and as nothing in particular.
const PARTS: [usize; 6] = [24, 24, 9, 15, 1, 5];

/// One to four alterations.
pub fn altered(dice: &mut Dice, bytes: &[u8]) -> Vec<u8> {
    let mut bytes = bytes.to_vec();
    for _ in 0..1 + dice.index(4) {
        alter(dice, &mut bytes);
    }
    bytes
}

fn alter(dice: &mut Dice, bytes: &mut Vec<u8>) {
    if bytes.is_empty() {
        *bytes = dice.bytes(1);
        return;
    }
    let place = dice.index(bytes.len());
    match dice.index(12) {
        0 => bytes[place] ^= 1 << dice.below(8),
        1 => bytes[place] = dice.byte(),
        2 | 3 => bytes[place] = dice.one_of(&[0, 1, 2, 3, 4, 5, 6, 7, 8, 9, 63, 64, 128, 255]),
        4 => bytes[place] = bytes[place].wrapping_add(dice.one_of(&[1, 255])),
        5 | 6 => put_number(dice, bytes, place, 4),
        7 => put_number(dice, bytes, place, 8),
        8 => bytes.truncate(place),
        9 => {
            let more = dice.one_of(&PARTS);
            bytes.extend(dice.bytes(more));
        }
        _ => move_part(dice, bytes, place),
    }
}

/// A number about the limits of the paper, where one of this width stands most often: at a multiple of four bytes.
fn put_number(dice: &mut Dice, bytes: &mut [u8], place: usize, width: usize) {
    let place = if dice.in_a_hundred(70) {
        place / 4 * 4
    } else {
        place
    };
    let held = bytes[place..].iter().take(width);
    let held = held.fold(0, |number, byte| number << 8 | u64::from(*byte));
    let length = bytes.len() as u64;
    let about = [
        0,
        24,
        64,
        512,
        49_176,
        1 << 31,
        1 << 32,
        GREATEST_STAMP,
        held,
        held,
        length,
    ];
    let number = dice
        .one_of(&about)
        .wrapping_add(dice.one_of(&[0, 0, 1, u64::MAX]));
    let number = number.to_be_bytes();
    let written = bytes[place..].iter_mut().zip(&number[8 - width..]);
    written.for_each(|(byte, new)| *byte = *new);
}

/// A part taken out, put in a second time, or exchanged with the one behind it.
fn move_part(dice: &mut Dice, bytes: &mut Vec<u8>, place: usize) {
    let wide = dice.one_of(&PARTS);
    let begin = if dice.in_a_hundred(70) {
        place / wide * wide
    } else {
        place
    };
    let end = (begin + wide).min(bytes.len());
    match dice.index(3) {
        0 => drop(bytes.drain(begin..end)),
        1 => {
            let again = bytes[begin..end].to_vec();
            bytes.splice(begin..begin, again);
        }
        _ => {
            let end = (begin + 2 * wide).min(bytes.len());
            let by = wide.min(end - begin);
            bytes[begin..end].rotate_left(by);
        }
    }
}
