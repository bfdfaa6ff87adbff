//! Runs that break a rule, and those that come near to it: in a table that is used and in one that is not.

use crate::lent::Lent;
use samples::runs::Run;
use samples::{damage, mixtures, random, Dice};

/// A run, and the place of a table in it that is to be damaged and has three rows at least.
fn run(dice: &mut Dice) -> (Run, usize) {
    loop {
        let run = mixtures::run(dice);
        let place = dice.index(run.tables.len());
        if run.tables[place].rows.len() >= 3 {
            return (run, place);
        }
    }
}

/// Every kind of damage to one image of a run.
pub fn images(lent: &mut Lent) {
    for turn in 0..50 {
        let mut dice = Dice::seeded(turn);
        let (run, place) = run(&mut dice);
        let damaged = &run.tables[place];
        let mut images: Vec<Vec<u8>> = run.tables.iter().map(|table| table.image()).collect();
        let mut ask = |_: &str, bytes: &[u8]| {
            images[place] = bytes.to_vec();
            lent.ask(&images.concat(), run.view);
        };
        damage::all(&mut dice, damaged, &mut ask);
        damage::cut_and_followed(&mut dice, damaged, &mut ask);
    }
}

/// A run cut anywhere, and followed by bytes or by parts of its images.
pub fn cut_and_followed(lent: &mut Lent) {
    for _ in 0..60 {
        let run = mixtures::run(&mut lent.dice);
        let bytes = run.bytes();
        for length in 0..bytes.len() {
            assert_ne!(lent.ask(&bytes[..length], run.view), 0);
        }
        for more in [1, 2, 23, 24, 25, 300] {
            let zeros = [&bytes[..], &vec![0; more]].concat();
            assert_eq!(lent.ask(&zeros, run.view), 2);
            let any = [&bytes[..], &lent.dice.bytes(more)].concat();
            lent.ask(&any, run.view);
            let again = [&bytes[..], &bytes[..more.min(bytes.len())]].concat();
            lent.ask(&again, run.view);
        }
    }
}

/// A byte of a run changed, taken out or put in, anywhere.
pub fn one_byte(lent: &mut Lent) {
    for _ in 0..3_000 {
        let run = mixtures::run(&mut lent.dice);
        let bytes = run.bytes();
        for _ in 0..20 {
            let dice = &mut lent.dice;
            let mut changed = bytes.clone();
            let place = dice.index(bytes.len());
            match dice.index(6) {
                0 => drop(changed.remove(place)),
                1 => changed.insert(place, dice.byte()),
                2 => changed[place] = dice.one_of(&[0, 1, 2, 4, 5, 8, 9, 64, 255]),
                _ => changed[place] ^= 1 << dice.below(8),
            }
            lent.ask(&changed, run.view);
        }
    }
}

/// Images of many and of too many rows in a run.
pub fn too_many_rows(lent: &mut Lent) {
    for turn in 0..6 {
        let mut dice = Dice::seeded(turn);
        let run = mixtures::run(&mut dice);
        let mut images: Vec<Vec<u8>> = run.tables.iter().map(|table| table.image()).collect();
        let place = dice.index(images.len());
        let header = images[place][..24].to_vec();
        damage::rows_about_the_limit(&mut dice, &mut |_, image| {
            let mut image = image.to_vec();
            // The box, n and views of the run's table: what is left to judge are the rows.
            image[..4].copy_from_slice(&header[..4]);
            image[8..16].copy_from_slice(&header[8..16]);
            images[place] = image;
            lent.ask(&images.concat(), run.view);
        });
    }
}

/// Bytes that nobody wrote.
pub fn random_bytes(lent: &mut Lent) {
    for turn in 0..20_000 {
        let mut dice = Dice::seeded(turn);
        let mut bytes = Vec::new();
        let mut lay = |_: &str, more: &[u8]| bytes.extend(more);
        for _ in 0..1 + turn % 4 {
            damage::likely_headers(&mut dice, &mut lay);
        }
        let view = dice.one_of(&[0, 1, 2]);
        lent.ask(&bytes, view);
        let rows = dice.index(4);
        let image = random::table(&mut dice, rows).image();
        lent.ask(&[image, bytes].concat(), view);
    }
}
