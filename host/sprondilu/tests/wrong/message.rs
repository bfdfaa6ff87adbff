//! Messages

use super::Met;
use crate::common::boxes::{settled, spoiled};
use crate::common::{fresh, History};
use reference::{Message, Mode};
use samples::{damage, message as make, random, Dice, TABLE_BYTES};
use sprondilu::{calls, wrong};
use std::ops::Range;

/// Whether the bytes are a message, by the second program's reading and, for message 6, by the rules of document 01 for an image
/// with which a view starts.
fn by_the_rules(bytes: &[u8]) -> bool {
    match Message::parse(bytes) {
        None => false,
        Some(Message::StartView { view, image }) => {
            image.mode == Mode::Normal
                && image.view == view
                && u32::from(image.box_number) == view % u32::from(image.n)
                && image.start_rows == image.rows.len()
                && image.rows.values().all(|row| {
                    matches!(row.prepare_byte(), 0 | 5..=8)
                        && matches!(row.outcome_byte(), 0 | 3 | 4)
                })
        }
        Some(_) => true,
    }
}

/// Whether the bytes are a message, on which the rules, the library and what is found wrong have to agree.
fn judged(bytes: &[u8]) -> bool {
    let good = by_the_rules(bytes);
    let found = wrong::message::message(bytes, None);
    let head = &bytes[..bytes.len().min(120)];
    assert_eq!(calls::is_message(bytes), good, "{:02x?}", head);
    assert_eq!(found.is_ok(), good, "{:?}: {:02x?}", found, head);
    if let Err(wrong) = found {
        assert!(wrong.byte <= bytes.len(), "{:?}: {:02x?}", wrong, head);
    }
    good
}

#[test]
fn messages_are_judged_as_by_the_library_and_by_the_rules() {
    let mut met: Vec<Met> = (0..9).map(|_| Met::default()).collect();
    for seed in 1..120 {
        let mut history = History::seeded(seed);
        for _ in 0..40 {
            let message = history.message();
            history.answer(&message);
            for _ in 0..4 {
                let bytes = spoiled(&mut history.dice, message.clone());
                let kind = usize::from(message[0]).min(8);
                met[kind].count(judged(&bytes));
            }
            met[usize::from(message[0]).min(8)].count(judged(&message));
        }
    }
    for kind in [1, 2, 3, 4, 5, 6, 7] {
        met[kind].assert_at_least(100, 300);
    }
}

#[test]
fn bytes_that_nobody_wrote_are_judged_as_by_the_library_and_by_the_rules() {
    let mut dice = Dice::seeded(201);
    let mut met = Met::default();
    for _ in 0..40_000 {
        let length = dice.one_of(&[0, 5, 10, 14, 20, 21, 22, 29, 30, 38, 39]);
        let length = length + dice.one_of(&[0, 0, 0, 1]);
        let mut bytes = vec![0; length];
        for byte in &mut bytes {
            *byte = dice.one_of(&[0, 0, 0, 1, 2, 3, 4, 5, 6, 7, 9, 63, 64, 255]);
        }
        if length > 1 && dice.in_a_hundred(90) {
            bytes[0] = dice.one_of(&[1, 1, 2, 3, 3, 4, 5, 7, 7]);
            bytes[1..length.min(6)].fill(0);
        }
        met.count(judged(&bytes));
    }
    met.assert_at_least(500, 10_000);
}

/// Views started with images of every kind, good and damaged, also ones that only a view's start may not have.
#[test]
fn starts_are_judged_as_by_the_library_and_by_the_rules() {
    let mut dice = Dice::seeded(202);
    let mut met = Met::default();
    for turn in 0..12 {
        let mut table = random::table(&mut dice, 3 + turn % 3);
        (table.mode, table.view, table.promised) = (0, 9, 9);
        table.box_number = 9 % table.n;
        table.start_rows = table.rows.len() as u32;
        for row in &mut table.rows {
            row.prepare += if matches!(row.prepare, 1..=4) { 4 } else { 0 };
            row.outcome += if matches!(row.outcome, 1 | 2) { 2 } else { 0 };
        }
        let mut judge = |_: &str, image: &[u8]| met.count(judged(&make::start_view(9, image)));
        damage::some_fields_overwritten(&mut dice, &table, 1_500, &mut judge);
        damage::cut_and_followed(&mut dice, &table, &mut judge);
        damage::every_mode(&table, &mut judge);
    }
    met.assert_at_least(1_000, 10_000);
}

/// A box of a group of n refuses what is wrong for that group, and nothing else.
#[test]
fn a_start_is_wrong_for_boxes_of_other_groups() {
    let mut met = Met::default();
    for (own, n) in [3, 5, 7]
        .iter()
        .flat_map(|own| [3, 5, 7].map(|n| (*own, n)))
    {
        for view in 0..40 {
            let message = make::start_view(view, &settled(&fresh(n, 0), view));
            let mut buffer = fresh(own, 0);
            buffer.resize(TABLE_BYTES, 0);
            let number = reference::answer(&mut buffer, &message, &mut [0; 24]);
            let found = wrong::message::message(&message, Some(own));
            assert_eq!(found.is_ok(), number != 3, "{:?}: {}", found, number);
            if let Err(wrong) = &found {
                assert_eq!(wrong.byte, 5 + 2, "{:?}", wrong);
            }
            met.count(found.is_ok());
        }
    }
    met.assert_at_least(3 * 40, 6 * 40);
}

/// A message that was cut is wrong where it ends, and one with more behind it where it should end.
#[test]
fn a_message_of_another_length_is_wrong_at_its_end() {
    let mut lengths = 0;
    for seed in 1..60 {
        let mut history = History::seeded(seed);
        for _ in 0..10 {
            let message = history.message();
            let (number, _) = history.answer(&message);
            if number == 3 || message.len() > 3_000 {
                continue;
            }
            for length in 0..message.len() {
                let found = wrong::message::message(&message[..length], None);
                let wrong = found.expect_err("a cut message");
                assert_eq!(wrong.byte, length, "{:?}: {:02x?}", wrong, message);
                lengths += 1;
            }
            let longer = [&message[..], &[0; 3]].concat();
            let wrong = wrong::message::message(&longer, None).expect_err("too long");
            assert_eq!(wrong.byte, message.len());
        }
    }
    assert!(lengths > 10_000, "{}", lengths);
}

/// Where damage to this byte of a message may show: in its field, or in one that a rule ties to it.
fn places(message: &[u8], byte: usize) -> Vec<Range<usize>> {
    let end = message.len() + 1;
    let counts = match message[0] {
        1 => 9,
        3 => 10,
        _ => usize::MAX - 20,
    };
    let body = counts + 2;
    match (message[0], byte) {
        // Another kind of message: nothing is what it was.
        (_, 0) => vec![0..end],
        // Versions lie below the stamp.
        (1 | 3, 1..=8) => vec![1..9, body..end],
        (_, 1..=8) => vec![1..9],
        _ if byte == counts || byte == counts + 1 => vec![counts..end],
        _ if byte < counts => match message[0] {
            2 if byte == 13 => vec![13..22],
            2 => vec![14..22],
            _ => vec![byte..byte + 1],
        },
        _ => {
            let access = body + (byte - body) / 9 * 9;
            if byte == access {
                vec![access..access + 1, access + 9..access + 10]
            } else {
                vec![access + 1..access + 9]
            }
        }
    }
}

#[test]
fn the_byte_that_is_named_is_in_the_damaged_field() {
    let mut met = [0; 8];
    for seed in 1..60 {
        let mut history = History::seeded(seed);
        for _ in 0..20 {
            let message = history.message();
            let (number, _) = history.answer(&message);
            if number == 3 || message[0] == 6 {
                continue;
            }
            for place in 0..message.len() {
                let mut bytes = message.clone();
                bytes[place] ^= history.dice.one_of(&[1, 2, 4, 64, 128, 255]);
                if let Err(wrong) = wrong::message::message(&bytes, None) {
                    let named = places(&message, place);
                    let is_there = named.iter().any(|place| place.contains(&wrong.byte));
                    assert!(is_there, "{}: {:?}: {:02x?}", place, wrong, bytes);
                    met[usize::from(message[0])] += 1;
                }
            }
        }
    }
    let others = [met[1], met[2], met[3], met[4], met[5], met[7]];
    assert!(others.iter().all(|times| *times > 10), "{:?}", met);
}
