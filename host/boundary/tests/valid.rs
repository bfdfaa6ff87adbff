//! Validity against the second program: number and length, on images of many kinds, good and bad.

use samples::damage::{self, ALWAYS_IMAGES, NEVER_IMAGES};
use samples::{random, Dice, Tally, MOST_ROWS, TABLE_BYTES};

/// Whether the bytes begin with an image, on which both programs have to agree.
fn judged(kind: &str, bytes: &[u8]) -> bool {
    let expected = reference::valid(bytes);
    let found = boundary::valid_answer(bytes);
    assert!(
        found == expected,
        "{}: {:#x} and not {:#x} for {} bytes that begin with {:02x?}",
        kind,
        found,
        expected,
        bytes.len(),
        &bytes[..bytes.len().min(240)]
    );
    expected != 2
}

/// Judges and counts.
fn counting(tally: &mut Tally) -> impl FnMut(&str, &[u8]) + '_ {
    move |kind, bytes| tally.count(kind, judged(kind, bytes))
}

#[test]
fn a_table_by_the_rules_is_an_image_of_its_length() {
    let mut dice = Dice::seeded(1);
    let sizes = (0..=MOST_ROWS).chain((0..3_000).map(|place| place % 7));
    for rows in sizes {
        let image = random::table(&mut dice, rows).image();
        assert!(judged("a table by the rules", &image), "{:02x?}", image);
        assert_eq!(boundary::valid(&image), Ok(image.len()));
        let followed = [image.clone(), dice.bytes(50)].concat();
        assert!(judged("a table by the rules, followed", &followed));
        assert_eq!(boundary::valid(&followed), Ok(image.len()));
    }
}

#[test]
fn a_full_table_is_an_image_of_49176_bytes() {
    let image = random::full_table(&mut Dice::seeded(2), MOST_ROWS).image();
    assert_eq!(image.len(), TABLE_BYTES);
    assert_eq!(boundary::valid(&image), Ok(TABLE_BYTES));
}

#[test]
fn rows_are_512_at_most() {
    let mut dice = Dice::seeded(3);
    let mut tally = Tally::default();
    (0..20).for_each(|_| damage::rows_about_the_limit(&mut dice, &mut counting(&mut tally)));
    // Of each round 509 to 512 rows, and 513 to 515.
    let met = tally.met("rows");
    assert_eq!((met.images, met.others), (20 * 8, 20 * 6));
}

#[test]
fn each_field_is_held_to_its_rules() {
    let (mut dice, tables) = random::small_tables(4, 60);
    let mut tally = Tally::default();
    for table in &tables {
        damage::fields_overwritten(table, &[], &mut counting(&mut tally));
        let behind = dice.bytes(100);
        damage::fields_overwritten(table, &behind, &mut counting(&mut tally));
    }
    // Nine fields of a header, seven of a row and four of its accesses, in three rows.
    assert_eq!(tally.kinds(), 9 + 3 * 11);
    tally.assert_both_verdicts_met(100, &ALWAYS_IMAGES);
    assert!(tally.samples() > 500_000, "{}", tally.samples());
}

#[test]
fn each_field_of_a_large_table_is_held_to_its_rules() {
    let mut dice = Dice::seeded(5);
    let mut tally = Tally::default();
    for rows in [64, MOST_ROWS - 1, MOST_ROWS] {
        let table = random::table(&mut dice, rows);
        let behind = dice.bytes(100);
        damage::fields_overwritten(&table, &behind, &mut counting(&mut tally));
    }
    tally.assert_both_verdicts_met(3, &ALWAYS_IMAGES);
    assert!(tally.samples() > 10_000, "{}", tally.samples());
}

#[test]
fn some_fields_at_once_are_held_to_their_rules() {
    let (mut dice, tables) = random::small_tables(6, 500);
    let mut tally = Tally::default();
    for table in &tables {
        damage::some_fields_overwritten(&mut dice, table, 100, &mut counting(&mut tally));
    }
    tally.assert_both_verdicts_met(5_000, &[]);
}

#[test]
fn boxes_modes_and_codes_are_held_to_their_rules() {
    let (_, tables) = random::small_tables(7, 6);
    let mut tally = Tally::default();
    for table in &tables {
        damage::every_mode(table, &mut counting(&mut tally));
    }
    damage::every_box(&tables[0], &mut counting(&mut tally));
    damage::every_code(&tables[0], 1, &mut counting(&mut tally));
    assert_eq!(tally.met("box and n").images, 15);
    assert_eq!(tally.met("mode and views").images, 6 * (5 + 10));
    // Without a retry stamp the codes of 7 prepares with 5 outcomes each, but not both zero; with one, RETRY alone.
    let images = tally.met("codes and retry stamp").images;
    assert_eq!(images, (7 * 5 - 1) + 2 * (2 * 5));
}

#[test]
fn counts_and_bodies_are_held_to_their_rules() {
    let (mut dice, tables) = random::small_tables(8, 200);
    let mut tally = Tally::default();
    for table in &tables {
        let judge = &mut counting(&mut tally);
        let rows = table.rows.len();
        for index in 0..rows {
            damage::counts_about_the_limit(&mut dice, table, index, judge);
            damage::reads_taken_for_writes(table, index, judge);
        }
        (0..=rows).for_each(|index| damage::gaps(table, index, judge));
        for index in 0..rows - 1 {
            damage::shared_bodies(table, index, judge);
            damage::bodies_out_of_order(table, index, judge);
        }
    }
    assert_eq!(tally.kinds(), 5);
    tally.assert_both_verdicts_met(500, &[]);
}

#[test]
fn an_image_cut_anywhere_is_none_and_bytes_after_it_are_free() {
    let mut dice = Dice::seeded(9);
    for rows in (0..200).map(|place| place % 8).chain([64]) {
        let table = random::table(&mut dice, rows);
        let mut tally = Tally::default();
        damage::cut_and_followed(&mut dice, &table, &mut counting(&mut tally));
        let met = tally.met("cut or followed");
        assert_eq!((met.images, met.others), (65, table.length() as u64));
    }
}

#[test]
fn a_full_image_cut_anywhere_is_none() {
    let mut dice = Dice::seeded(10);
    let table = random::full_table(&mut dice, MOST_ROWS);
    let mut tally = Tally::default();
    damage::cut_and_followed(&mut dice, &table, &mut counting(&mut tally));
    let met = tally.met("cut or followed");
    assert_eq!((met.images, met.others), (65, TABLE_BYTES as u64));
}

#[test]
fn one_byte_anywhere_is_judged_as_by_the_second_program() {
    let mut dice = Dice::seeded(11);
    let mut tally = Tally::default();
    for place in 0..40_000 {
        let table = random::table(&mut dice, 1 + place % 6);
        damage::one_byte(&mut dice, &table, &mut counting(&mut tally));
    }
    let full = random::full_table(&mut dice, MOST_ROWS);
    for _ in 0..1_000 {
        damage::one_byte(&mut dice, &full, &mut counting(&mut tally));
    }
    assert_eq!(tally.kinds(), 4);
    tally.assert_both_verdicts_met(300, &[]);
}

#[test]
fn bytes_of_every_kind_are_judged_as_by_the_second_program() {
    let mut dice = Dice::seeded(12);
    let mut tally = Tally::default();
    for _ in 0..50_000 {
        damage::random_bytes(&mut dice, &mut counting(&mut tally));
        damage::likely_headers(&mut dice, &mut counting(&mut tally));
    }
    tally.assert_both_verdicts_met(1_000, &[NEVER_IMAGES]);
    assert_eq!(tally.met(NEVER_IMAGES).others, 50_000);
}

#[test]
fn an_image_may_begin_at_any_address() {
    let mut dice = Dice::seeded(13);
    for rows in [0, 1, 5, 64] {
        let image = random::table(&mut dice, rows).image();
        for from in 0..64 {
            let bytes = [dice.bytes(from), image.clone()].concat();
            assert_eq!(boundary::valid(&bytes[from..]), Ok(image.len()));
            assert_eq!(boundary::valid(&bytes[from..bytes.len() - 1]), Err(2));
        }
    }
}
