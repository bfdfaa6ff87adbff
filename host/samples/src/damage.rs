//! Images of many kinds, good and bad. In every kind but random bytes some samples are images, so that whoever refuses
//! all is noticed too.

use crate::field::fields;
use crate::random;
use crate::table::{HEADER_LENGTH, ROW_LENGTH};
use crate::{Dice, Row, Table, GREATEST_STAMP, MOST_ROWS};

/// Whoever judges samples gets each of them with its kind.
pub type Judge<'a> = dyn FnMut(&str, &[u8]) + 'a;

/// The kinds of which every sample is an image: a write may have any value.
pub const ALWAYS_IMAGES: [&str; 3] = [
    "value of the first row",
    "value of the middle row",
    "value of the last row",
];

/// The kind of which no sample can be expected to be an image.
pub const NEVER_IMAGES: &str = "random bytes";

/// All kinds of damage to a table of three rows or more, but for those that take very many samples.
pub fn all(dice: &mut Dice, table: &Table, judge: &mut Judge) {
    fields_overwritten(table, &[], judge);
    some_fields_overwritten(dice, table, 500, judge);
    counts_about_the_limit(dice, table, 1, judge);
    for index in 0..3 {
        gaps(table, index, judge);
        reads_taken_for_writes(table, index, judge);
    }
    shared_bodies(table, 1, judge);
    bodies_out_of_order(table, 1, judge);
    (0..200).for_each(|_| one_byte(dice, table, judge));
    (0..100).for_each(|_| likely_headers(dice, judge));
    (0..20).for_each(|_| random_bytes(dice, judge));
}

/// Every field of the header, and of the first, the middle and the last row, with each value worth trying in turn.
pub fn fields_overwritten(table: &Table, bytes_after: &[u8], judge: &mut Judge) {
    let mut bytes = [&table.image(), bytes_after].concat();
    for field in fields(table) {
        for value in &field.tries {
            field.put(&mut bytes, *value);
            judge(&field.kind, &bytes);
        }
        field.put(&mut bytes, field.held);
    }
}

/// So many samples in which two or three fields have a value worth trying in each.
pub fn some_fields_overwritten(dice: &mut Dice, table: &Table, times: usize, judge: &mut Judge) {
    let image = table.image();
    let fields = fields(table);
    for _ in 0..times {
        let mut bytes = image.clone();
        for _ in 0..2 + dice.index(2) {
            let field = &fields[dice.index(fields.len())];
            let value = dice.one_of(&field.tries);
            // What is held half of the time, so that an image is left often enough.
            field.put(&mut bytes, dice.one_of(&[value, field.held]));
        }
        judge("some fields", &bytes);
    }
}

/// Every box of every n, in the header of a table.
pub fn every_box(table: &Table, judge: &mut Judge) {
    let mut bytes = table.image();
    for n in 0..=255 {
        for box_number in 0..=255 {
            bytes[1..3].copy_from_slice(&[box_number, n]);
            judge("box and n", &bytes);
        }
    }
}

/// Every pair of codes in a row of the table, with retry stamps about the limits.
pub fn every_code(table: &Table, index: usize, judge: &mut Judge) {
    let at = HEADER_LENGTH + ROW_LENGTH * index;
    let mut bytes = table.image();
    for retry in [0, 1, GREATEST_STAMP, GREATEST_STAMP + 1, u64::MAX] {
        bytes[at + 8..at + 16].copy_from_slice(&retry.to_be_bytes());
        for (prepare, outcome) in (0..=255).flat_map(|p| (0..=255).map(move |o| (p, o))) {
            bytes[at + 22..at + 24].copy_from_slice(&[prepare, outcome]);
            judge("codes and retry stamp", &bytes);
        }
    }
}

/// Every mode with views about the limits and about each other.
pub fn every_mode(table: &Table, judge: &mut Judge) {
    let views = [0, 1, 2, u32::MAX - 1, u32::MAX];
    let mut table = table.clone();
    for mode in 0..=255 {
        for (view, promised) in views.iter().flat_map(|v| views.iter().map(move |p| (v, p))) {
            table.mode = mode;
            table.view = *view;
            table.promised = *promised;
            judge("mode and views", &table.image());
        }
    }
}

/// Whole images of many and of too many rows.
pub fn rows_about_the_limit(dice: &mut Dice, judge: &mut Judge) {
    for rows in MOST_ROWS - 3..=MOST_ROWS + 3 {
        judge("rows", &random::table(dice, rows).image());
        judge("rows", &random::full_table(dice, rows).image());
    }
}

/// Whole images in which one row has up to six reads and up to six writes.
pub fn counts_about_the_limit(dice: &mut Dice, table: &Table, index: usize, judge: &mut Judge) {
    let stamp = table.rows[index].stamp;
    for counts in (0..=6).flat_map(|reads| (0..=6).map(move |writes| (reads, writes))) {
        let mut table = table.clone();
        table.rows[index] = random::row(dice, stamp, counts);
        judge("counts", &table.image());
    }
}

/// The accesses of a row divided otherwise into reads and writes, which moves no body.
pub fn reads_taken_for_writes(table: &Table, index: usize, judge: &mut Judge) {
    let Row { reads, writes, .. } = &table.rows[index];
    let accesses = reads.len() + writes.len();
    let at = HEADER_LENGTH + ROW_LENGTH * index + 20;
    let mut bytes = table.image();
    for reads in 0..=accesses {
        bytes[at..at + 2].copy_from_slice(&[reads as u8, (accesses - reads) as u8]);
        judge("reads taken for writes", &bytes);
    }
}

/// Up to nine bytes between a body and what stands before it; with the number of rows, behind the last body. All offsets
/// and the total length fit.
pub fn gaps(table: &Table, index: usize, judge: &mut Judge) {
    let image = table.image();
    for gap in [0, 1, 8, 9] {
        let mut bytes = image.clone();
        let at = table.body_place(index);
        bytes.splice(at..at, vec![0; gap]);
        for later in index..table.rows.len() {
            put_offset(&mut bytes, later, table.body_place(later) + gap);
        }
        put_length(&mut bytes, image.len() + gap);
        judge("gaps", &bytes);
    }
}

/// Two rows that share one body, which stands there once, or, for a control, twice. All offsets and the total length fit.
pub fn shared_bodies(table: &Table, index: usize, judge: &mut Judge) {
    let mut table = table.clone();
    table.rows[index + 1].reads = table.rows[index].reads.clone();
    table.rows[index + 1].writes = table.rows[index].writes.clone();
    let (from, to) = (table.body_place(index), table.body_place(index + 1));
    let mut bytes = table.image();
    judge("shared bodies", &bytes);
    bytes.drain(from..to);
    for later in index + 1..table.rows.len() {
        put_offset(&mut bytes, later, table.body_place(later) - (to - from));
    }
    let length = bytes.len();
    put_length(&mut bytes, length);
    judge("shared bodies", &bytes);
}

/// The bodies in another order than the rows: a row's body stands before that of the row before it, or, for a control,
/// all stand as they should. Every offset leads to its row's body.
pub fn bodies_out_of_order(table: &Table, index: usize, judge: &mut Judge) {
    let place = |index| table.body_place(index);
    let (first, second, end) = (place(index), place(index + 1), place(index + 2));
    let mut bytes = table.image();
    judge("bodies out of order", &bytes);
    bytes[first..end].rotate_left(second - first);
    put_offset(&mut bytes, index, first + (end - second));
    put_offset(&mut bytes, index + 1, first);
    judge("bodies out of order", &bytes);
}

fn put_offset(image: &mut [u8], index: usize, offset: usize) {
    let at = HEADER_LENGTH + ROW_LENGTH * index + 16;
    image[at..at + 4].copy_from_slice(&(offset as u32).to_be_bytes());
}

fn put_length(image: &mut [u8], length: usize) {
    image[20..24].copy_from_slice(&(length as u32).to_be_bytes());
}

/// The image cut at every length, and followed by other bytes. What was cut off still stands behind the part that is lent.
pub fn cut_and_followed(dice: &mut Dice, table: &Table, judge: &mut Judge) {
    let image = table.image();
    let followed = [image.clone(), dice.bytes(64)].concat();
    for length in 0..=followed.len() {
        judge("cut or followed", &followed[..length]);
    }
}

/// One byte changed, one taken out or one put in, anywhere, with other bytes behind the image.
pub fn one_byte(dice: &mut Dice, table: &Table, judge: &mut Judge) {
    let image = [table.image(), dice.bytes(9)].concat();
    let place = dice.index(table.length());
    let mut bytes = image.clone();
    bytes[place] ^= 1 + dice.below(255) as u8;
    judge("a byte changed", &bytes);
    bytes[place] = image[place].wrapping_add(1);
    judge("a byte raised", &bytes);
    bytes.remove(place);
    judge("a byte taken out", &bytes);
    let mut bytes = image;
    bytes.insert(place, dice.byte());
    judge("a byte put in", &bytes);
}

/// Bytes that nobody wrote, of any length up to a few rows.
pub fn random_bytes(dice: &mut Dice, judge: &mut Judge) {
    let length = dice.index(200);
    judge(NEVER_IMAGES, &dice.bytes(length));
}

/// A header of likely numbers and what may stand behind it.
pub fn likely_headers(dice: &mut Dice, judge: &mut Judge) {
    let single = [[1, 1, 1, 0], [0, 1, 2, 3], [3, 5, 7, 4], [0, 0, 1, 1]];
    let rows_and_views = [[0, 0, 0, 1], [0, 0, 1, 2], [0, 0, 1, 2], [0, 0, 0, 1]];
    let mut bytes: Vec<u8> = single.iter().map(|likely| dice.one_of(likely)).collect();
    for likely in rows_and_views.iter().chain([&[24, 24, 25, 57]]) {
        bytes.extend(u32::to_be_bytes(dice.one_of(likely)));
    }
    let behind = dice.index(60);
    bytes.extend(dice.bytes(behind));
    judge("likely headers", &bytes);
}

/// Breaks a rule of the header, or of the first row and its body.
pub fn spoil(dice: &mut Dice, image: &mut [u8]) {
    let rows = u32::from_be_bytes(image[4..8].try_into().expect("four bytes"));
    let body = 24 + 24 * rows as usize;
    let which = if rows == 0 { 7 } else { 14 };
    match dice.index(which) {
        0 => image[0] = dice.one_of(&[0, 2, 255]),
        1 => image[1] = dice.one_of(&[7, 255]),
        2 => image[2] = dice.one_of(&[0, 4, 6, 8]),
        3 => image[3] = dice.one_of(&[2, 255]),
        4 => image[7] ^= 1,
        5 => image[16..20].copy_from_slice(&(rows + 1).to_be_bytes()),
        6 => image[23] ^= 1 << dice.below(8),
        7 => image[24] = 1,
        8 => image[24..32].fill(0),
        9 => image[43] ^= 1 << dice.below(8),
        10 => image[44 + dice.index(2)] = 5,
        11 => image[46] = 9,
        12 => image[47] = 5,
        _ => image[body] = 64,
    }
}
