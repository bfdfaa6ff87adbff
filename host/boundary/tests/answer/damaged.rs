//! Tables and messages that break a rule, and those that come near to it.

use crate::lent::Lent;
use samples::{damage, kinds, random, Dice};

/// Tables of every kind, good and damaged; each is asked one message.
pub fn tables(lent: &mut Lent) {
    for turn in 0..16 {
        let table = random::table(&mut lent.dice, 3 + turn % 5);
        let mut dice = Dice::seeded(turn as u64);
        let messages = kinds::messages(&mut dice, &table);
        let mut which = 0;
        let mut ask = |_: &str, bytes: &[u8]| {
            lent.hold(bytes);
            which = (which + 1) % messages.len();
            lent.ask(&messages[which]);
        };
        damage::all(&mut dice, &table, &mut ask);
    }
    let mut dice = Dice::seeded(99);
    let one = random::table(&mut dice, 1);
    let messages = kinds::messages(&mut dice, &one);
    damage::rows_about_the_limit(&mut dice, &mut |_, bytes| {
        lent.hold(bytes);
        lent.ask(&messages[6]);
    });
}

/// Messages with one byte changed, each to many values; cut anywhere, followed by bytes, of every kind.
pub fn messages_spoiled(lent: &mut Lent) {
    for turn in 0..40 {
        let table = random::table(&mut lent.dice, 2 + turn % 4);
        let image = table.image();
        for message in kinds::messages(&mut lent.dice, &table) {
            every_kind(lent, &image, &message);
            cut_and_followed(lent, &image, &message);
            // An image is damaged apart from this, so that few of its bytes are enough here.
            let step = 1 + message.len() / 100;
            let places = (0..message.len()).step_by(step);
            places.for_each(|place| bytes_at(lent, &image, &message, place));
        }
    }
}

/// The message with each of 256 kinds.
fn every_kind(lent: &mut Lent, image: &[u8], message: &[u8]) {
    let mut changed = message.to_vec();
    for kind in (0..=255).filter(|_| !message.is_empty()) {
        changed[0] = kind;
        asked(lent, image, &changed);
    }
}

fn cut_and_followed(lent: &mut Lent, image: &[u8], message: &[u8]) {
    (0..message.len()).for_each(|length| asked(lent, image, &message[..length]));
    for more in [1, 2, 9, 18, 300] {
        let followed = [message, &lent.dice.bytes(more)].concat();
        asked(lent, image, &followed);
    }
}

/// The message with other bytes in a place: those about the limits of codes, counts and registers, those beside the one that
/// is there, and any. Now and then a second place is changed too.
fn bytes_at(lent: &mut Lent, image: &[u8], message: &[u8], place: usize) {
    let held = message[place];
    let any = lent.dice.bytes(3);
    let about = [0, 1, 2, 3, 4, 5, 63, 64, 127, 128, 255];
    let beside = [held.wrapping_add(1), held.wrapping_sub(1), held ^ 128];
    for byte in [&about[..], &beside, &any].concat() {
        let mut changed = message.to_vec();
        changed[place] = byte;
        if lent.dice.in_a_hundred(20) {
            let second = lent.dice.index(changed.len());
            changed[second] = lent.dice.one_of(&about);
        }
        asked(lent, image, &changed);
    }
}

fn asked(lent: &mut Lent, image: &[u8], message: &[u8]) {
    lent.hold(image);
    lent.ask(message);
}
