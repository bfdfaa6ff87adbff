//! Tables

use samples::damage::{self, ALWAYS_IMAGES, NEVER_IMAGES};
use samples::field::{fields, Field};
use samples::{random, Dice, Table, Tally, MOST_ROWS};
use sprondilu::wrong;
use std::collections::BTreeMap;
use std::ops::Range;

/// Whether the bytes begin with an image, on which the library and what is found wrong have to agree.
fn judged(kind: &str, bytes: &[u8]) -> bool {
    let is_image = boundary::valid(bytes).is_ok();
    let found = wrong::table::image(bytes);
    assert_eq!(
        found.is_ok(),
        is_image,
        "{}: {:?} for {} bytes that begin with {:02x?}",
        kind,
        found,
        bytes.len(),
        &bytes[..bytes.len().min(240)]
    );
    if let Err(wrong) = found {
        assert!(wrong.byte <= bytes.len(), "{}: {:?}", kind, wrong);
    }
    is_image
}

fn counting(tally: &mut Tally) -> impl FnMut(&str, &[u8]) + '_ {
    move |kind, bytes| tally.count(kind, judged(kind, bytes))
}

#[test]
fn each_field_is_judged_as_by_the_library() {
    let (mut dice, tables) = random::small_tables(104, 14);
    let mut tally = Tally::default();
    for table in &tables {
        damage::fields_overwritten(table, &[], &mut counting(&mut tally));
        let behind = dice.bytes(100);
        damage::fields_overwritten(table, &behind, &mut counting(&mut tally));
        damage::some_fields_overwritten(&mut dice, table, 400, &mut counting(&mut tally));
    }
    tally.assert_both_verdicts_met(20, &ALWAYS_IMAGES);
    assert!(tally.samples() > 100_000, "{}", tally.samples());
}

#[test]
fn boxes_modes_codes_and_bodies_are_judged_as_by_the_library() {
    let (mut dice, tables) = random::small_tables(105, 30);
    let mut tally = Tally::default();
    damage::every_box(&tables[0], &mut counting(&mut tally));
    damage::every_code(&tables[0], 1, &mut counting(&mut tally));
    for table in &tables {
        let judge = &mut counting(&mut tally);
        damage::every_mode(table, judge);
        for index in 0..table.rows.len() - 1 {
            damage::counts_about_the_limit(&mut dice, table, index, judge);
            damage::reads_taken_for_writes(table, index, judge);
            damage::gaps(table, index, judge);
            damage::shared_bodies(table, index, judge);
            damage::bodies_out_of_order(table, index, judge);
        }
    }
    tally.assert_both_verdicts_met(15, &[]);
    assert!(tally.samples() > 100_000, "{}", tally.samples());
}

#[test]
fn bytes_of_every_kind_are_judged_as_by_the_library() {
    let mut dice = Dice::seeded(106);
    let mut tally = Tally::default();
    for turn in 0..10_000 {
        let table = random::table(&mut dice, 1 + turn % 6);
        damage::one_byte(&mut dice, &table, &mut counting(&mut tally));
        damage::random_bytes(&mut dice, &mut counting(&mut tally));
        damage::likely_headers(&mut dice, &mut counting(&mut tally));
    }
    damage::rows_about_the_limit(&mut dice, &mut counting(&mut tally));
    tally.assert_both_verdicts_met(6, &[NEVER_IMAGES]);
    let full = random::full_table(&mut dice, MOST_ROWS);
    let mut tally = Tally::default();
    for _ in 0..300 {
        damage::one_byte(&mut dice, &full, &mut counting(&mut tally));
    }
    tally.assert_both_verdicts_met(1, &["a byte taken out", "a byte put in"]);
}

/// Of an image that was cut anywhere, what is wrong is where it ends.
#[test]
fn a_cut_image_is_wrong_where_it_ends() {
    let mut dice = Dice::seeded(107);
    let mut cut = 0;
    for rows in (0..30).chain([MOST_ROWS]) {
        let image = random::table(&mut dice, rows).image();
        for length in 0..image.len() {
            let found = wrong::table::image(&image[..length]);
            let byte = found.expect_err("a cut image").byte;
            assert_eq!(byte, length);
            assert!(boundary::valid(&image[..length]).is_err());
            cut += 1;
        }
        assert_eq!(wrong::table::image(&image), Ok(()));
    }
    assert!(cut > 40_000, "{}", cut);
}

/// Where damage to this field may show: in it, or, where a rule ties it to another, in that one.
fn places(table: &Table, field: &Field, end: usize) -> Vec<Range<usize>> {
    let own = field.place..field.place + field.width;
    let kind = field.kind.split(" of the ").next().expect("a kind");
    let at = field.place.saturating_sub(24) / 24 * 24 + 24;
    let index = (at - 24) / 24;
    let body = || table.body_place(index)..table.body_place(index + 1);
    let other = match kind {
        "n" => vec![1..2],
        "mode" | "view" => vec![12..16],
        // With other rows nothing behind them is what it was.
        "rows" => vec![16..end + 1],
        "total length" => vec![end..end + 1],
        "stamp" => vec![at + 24..at + 32, body()],
        // With another count the bodies behind it are elsewhere.
        "read count" | "write count" => {
            let accesses = table.body_place(index)..table.body_place(index) + 72;
            vec![
                at + 20..at + 22,
                at + 40..at + 44,
                accesses,
                20..24,
                end..end + 1,
            ]
        }
        "prepare byte" => vec![at + 8..at + 16],
        "outcome byte" => vec![at + 22..at + 23],
        "read register" | "write register" => vec![field.place + 9..field.place + 10],
        _ => Vec::new(),
    };
    [vec![own], other].concat()
}

/// One field with another value: what is wrong is named there.
#[test]
fn the_byte_that_is_named_is_in_the_damaged_field() {
    let (mut dice, tables) = random::small_tables(108, 60);
    let mut met: BTreeMap<String, (u64, u64)> = BTreeMap::new();
    for table in &tables {
        let behind = dice.one_of(&[0, 200]);
        let mut bytes = [table.image(), dice.bytes(behind)].concat();
        for field in fields(table) {
            let places = places(table, &field, bytes.len());
            for value in &field.tries {
                field.put(&mut bytes, *value);
                if let Err(wrong) = wrong::table::image(&bytes) {
                    let place = places.iter().position(|place| place.contains(&wrong.byte));
                    let place = place.unwrap_or_else(|| panic!("{}: {:?}", field.kind, wrong));
                    let kind = met.entry(field.kind.clone()).or_default();
                    *(if place == 0 { &mut kind.0 } else { &mut kind.1 }) += 1;
                }
            }
            field.put(&mut bytes, field.held);
        }
    }
    // Every field can be wrong but those of values. Whether a view is right shows in the promised one alone.
    assert_eq!(met.len(), 9 + 3 * 10, "{:?}", met.keys());
    for (kind, (own, other)) in &met {
        let enough = *own > 100 || (kind == "view" && *other > 100);
        assert!(enough, "{}: {} {}", kind, own, other);
    }
}
