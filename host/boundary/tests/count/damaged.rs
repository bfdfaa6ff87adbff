//! Replies that break a rule, and those that come near to it.

use crate::lent::Lent;
use samples::replies::{self, laid, RECORD_LENGTH};
use samples::{Dice, Record, GREATEST_STAMP};

/// Where the fields of a record stand, and how wide they are: box, view, result, retry stamp, final byte.
const FIELDS: [(usize, usize); 5] = [(0, 1), (1, 4), (5, 1), (6, 8), (14, 1)];

/// A list by the rules with one reply at least, in bytes, and its n.
fn list(dice: &mut Dice) -> (u8, Vec<u8>) {
    loop {
        let (n, records) = replies::some(dice);
        if !records.is_empty() {
            return (n, laid(&records));
        }
    }
}

/// Every value of a byte; of a wider field those about the limits of a stamp and of the width, and the one that is held
/// with each of its bits turned.
fn tries(held: &[u8]) -> Vec<Vec<u8>> {
    if held.len() == 1 {
        return (0..=255).map(|byte| vec![byte]).collect();
    }
    let limits = [0, 1 << 32, GREATEST_STAMP, 1 << 56, 1 << 63, u64::MAX];
    let about = limits
        .iter()
        .flat_map(|limit| [limit.wrapping_sub(1), *limit, limit.wrapping_add(1)])
        .map(|number| number.to_be_bytes()[8 - held.len()..].to_vec());
    let turned = (0..8 * held.len()).map(|bit| {
        let mut turned = held.to_vec();
        turned[bit / 8] ^= 1 << (bit % 8);
        turned
    });
    about.chain(turned).collect()
}

/// Each field of each reply with every value worth trying there; and every n.
pub fn fields(lent: &mut Lent) {
    for _ in 0..60 {
        let (n, bytes) = list(&mut lent.dice);
        for record in (0..bytes.len()).step_by(RECORD_LENGTH) {
            for (place, width) in FIELDS {
                let field = record + place..record + place + width;
                let mut changed = bytes.clone();
                for value in tries(&bytes[field.clone()]) {
                    changed[field.clone()].copy_from_slice(&value);
                    lent.ask(n, &changed);
                }
            }
        }
        for other in 0..=255 {
            lent.ask(other, &bytes);
        }
    }
}

/// Every code with stamps about the limits, and every final byte with every result, in one of the replies.
pub fn results(lent: &mut Lent) {
    let stamps = [0, 1, GREATEST_STAMP, GREATEST_STAMP + 1, u64::MAX];
    for _ in 0..20 {
        let (n, mut bytes) = list(&mut lent.dice);
        let record = RECORD_LENGTH * lent.dice.index(bytes.len() / RECORD_LENGTH);
        for stamp in stamps {
            bytes[record + 6..record + 14].copy_from_slice(&stamp.to_be_bytes());
            for byte in 0..=255 {
                (bytes[record + 5], bytes[record + 14]) = (byte, 0);
                lent.ask(n, &bytes);
                (bytes[record + 5], bytes[record + 14]) = (1 + byte % 4, byte);
                lent.ask(n, &bytes);
            }
        }
    }
}

/// A list cut at every length, with what was cut off behind it; and followed by other bytes.
pub fn cut_and_followed(lent: &mut Lent) {
    for _ in 0..1_500 {
        let (n, bytes) = list(&mut lent.dice);
        for length in 0..=bytes.len() {
            let answer = lent.ask_before(n, &bytes[..length], &bytes[length..]);
            let whole = length % RECORD_LENGTH == 0;
            assert_eq!(answer == 3, !whole, "cut at {}", length);
        }
        for more in [1, 2, 5, 8, 14, 15, 16, 29, 30, 31] {
            let any = lent.dice.bytes(more);
            for behind in [vec![0; more], any, bytes.repeat(3)[..more].to_vec()] {
                lent.ask(n, &[&bytes[..], &behind].concat());
            }
        }
    }
}

/// A byte changed, taken out or put in, anywhere; now and then a second one too.
pub fn one_byte(lent: &mut Lent) {
    for _ in 0..20_000 {
        let (n, bytes) = list(&mut lent.dice);
        for _ in 0..10 {
            let mut changed = bytes.clone();
            for _ in 0..1 + lent.dice.index(2) {
                change(&mut lent.dice, &mut changed);
            }
            lent.ask(n, &changed);
        }
    }
}

fn change(dice: &mut Dice, bytes: &mut Vec<u8>) {
    let place = dice.index(bytes.len());
    match dice.index(8) {
        0 if bytes.len() > 1 => drop(bytes.remove(place)),
        1 => bytes.insert(place, dice.byte()),
        2 => bytes[place] = dice.byte(),
        3 | 4 => bytes[place] = dice.one_of(&[0, 1, 2, 3, 4, 5, 6, 7, 128, 255]),
        _ => bytes[place] ^= 1 << dice.below(8),
    }
}

/// Bytes that nobody wrote, of every length up to 300, for every n; and such as a reply may well have.
pub fn random_bytes(lent: &mut Lent) {
    for turn in 0..120_000 {
        let n = match turn % 4 {
            0 => lent.dice.byte(),
            _ => lent.dice.one_of(&[3, 5, 7]),
        };
        let any = lent.dice.bytes(turn % 301);
        lent.ask(n, &any);
        let likely: Vec<u8> = (0..turn % 9).flat_map(|_| likely(&mut lent.dice)).collect();
        lent.ask(n, &likely);
    }
}

/// A record of likely numbers.
fn likely(dice: &mut Dice) -> [u8; RECORD_LENGTH] {
    let view = dice.one_of(&[0, 0, 0, 0, 0, 0, 1]);
    let retry = dice.one_of(&[0, 0, 1, 2]);
    let codes: &[u8] = if retry == 0 {
        &[1, 1, 2, 3, 1, 1, 2, 3, 0]
    } else {
        &[4, 4, 4, 4, 4, 4, 4, 4, 5]
    };
    let record = Record {
        box_number: dice.below(8) as u8,
        view,
        result: (dice.one_of(codes), retry),
        is_final: dice.one_of(&[0, 0, 0, 0, 0, 0, 1, 2]),
    };
    record.bytes()
}
