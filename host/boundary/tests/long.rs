//! Lengths that need more than 32 bits: a table buffer, lent bytes and lent records may be that long.

use samples::replies::{laid, Record};
use samples::{random, Dice, TABLE_BYTES};

/// The machine gives memory to such a buffer only where it is touched.
fn longer_than_32_bits(more: usize) -> Vec<u8> {
    vec![0; (1 << 32) + more]
}

#[test]
fn a_length_is_taken_whole() {
    let mut buffer = longer_than_32_bits(10);
    assert_eq!(boundary::fresh(&mut buffer, 3, 1), 0);
    let mut second = vec![0; TABLE_BYTES];
    assert_eq!(reference::fresh(&mut second, 3, 1), 0);
    assert_eq!(buffer[..TABLE_BYTES], second[..]);
    assert_eq!(boundary::valid(&buffer), Ok(24));
    let image = random::table(&mut Dice::seeded(1), 7).image();
    buffer[..image.len()].copy_from_slice(&image);
    assert_eq!(boundary::valid(&buffer), Ok(image.len()));
    assert_eq!(boundary::valid(&buffer[..10]), Err(2));
}

/// Cut to 32 bits, each of these lengths would be another one.
fn lengths_are_taken_whole(answer: fn(&mut [u8], &[u8], &mut [u8]) -> u64) {
    let mut table = vec![0; TABLE_BYTES];
    assert_eq!(boundary::fresh(&mut table, 3, 1), 0);
    let change_view = [5, 0, 0, 0, 7];
    let mut long = longer_than_32_bits(5);
    long[..24].copy_from_slice(&table[..24]);
    let mut reply = [0; 24];
    assert_eq!(answer(&mut long, &change_view, &mut reply), 0);
    assert_eq!((long[3], long[15]), (1, 7));
    long[..24].fill(0);
    assert_eq!(answer(&mut table, &change_view, &mut long), 0);
    assert_eq!(long[..24], reply);
    // A byte is behind the first five of such a message, and many more.
    long[..24].fill(0);
    long[..5].copy_from_slice(&[5, 0, 0, 0, 9]);
    assert_eq!(answer(&mut table, &long, &mut reply), 3);
}

#[test]
fn every_length_of_an_answer_is_taken_whole() {
    lengths_are_taken_whole(|table, message, reply| boundary::answer(table, message, reply).into());
    lengths_are_taken_whole(boundary::answer_word);
}

/// An output cut to 32 bits would be too short, and the run cut to them would be the two images alone.
#[test]
fn every_length_of_a_merge_is_taken_whole() {
    let table = |box_number| {
        let mut table = vec![0; TABLE_BYTES];
        assert_eq!(boundary::fresh(&mut table, 3, box_number), 0);
        let change_view = [5, 0, 0, 0, 7];
        assert_eq!(boundary::answer(&mut table, &change_view, &mut [0; 24]), 0);
        table[..24].to_vec()
    };
    let run = [table(0), table(2)].concat();
    let mut long = longer_than_32_bits(run.len());
    assert_eq!(boundary::merge(&run, 7, &mut long), 0);
    let mut out = vec![0; TABLE_BYTES];
    assert_eq!(reference::merge(&run, 7, &mut out), 0);
    assert_eq!(long[..TABLE_BYTES], out[..]);
    long[..run.len()].copy_from_slice(&run);
    assert_eq!(boundary::merge(&long[..run.len()], 7, &mut out), 0);
    assert_eq!(boundary::merge(&long, 7, &mut out), 2);
}

/// Cut to 32 bits, the first of the long lists would be three replies that agree, and the second none at all.
#[test]
fn the_length_of_a_count_is_taken_whole() {
    let record = |box_number| Record {
        box_number,
        view: 9,
        result: (1, 0),
        is_final: 0,
    };
    let replies = laid(&[record(0), record(1), record(2)]);
    assert_eq!(boundary::count(3, &replies), 0x500);
    let mut long = longer_than_32_bits(replies.len());
    long[..replies.len()].copy_from_slice(&replies);
    assert_eq!(boundary::count(3, &long), 3);
    assert_eq!(boundary::count(3, &long[..1 << 32]), 3);
    assert_eq!(boundary::count(3, &long[..replies.len()]), 0x500);
}

/// The words of three records that agree: the box, the result and the view, tentative; then no retry stamp.
fn three_records() -> Vec<u64> {
    let words = |box_number: u64| [box_number | 1 << 8 | 9 << 32, 0];
    [words(0), words(1), words(2)].concat()
}

/// In bytes and cut to 32 bits, the length of the first long list would be that of the three records, and the length of the
/// second 0.
#[test]
fn the_length_of_records_is_taken_whole() {
    let three = three_records();
    let most = (1 << 32) / 8;
    let mut long = vec![0; most + three.len()];
    long[..three.len()].copy_from_slice(&three);
    let count = |words: &[u64]| boundary::count_records(3, boundary::records_in(words));
    assert_eq!(count(&long), 3);
    assert_eq!(count(&long[..most]), 3);
    assert_eq!(count(&long[..three.len()]), 0x500);
}

extern "C" {
    fn mmap(at: *mut u8, length: usize, access: i32, kind: i32, file: i32, from: i64) -> *mut u8;
}

/// So many words of 0 that are only read, for which the machine gives no memory, however many they are.
fn only_read(words: usize) -> &'static [u64] {
    // Reading alone, private, of no file, and with no memory kept for it; what is mapped stays until the program ends.
    let mapped = unsafe { mmap(std::ptr::null_mut(), 8 * words, 1, 0x4022, -1, 0) };
    assert!(mapped as isize != -1, "no addresses for {} words", words);
    // It begins at a page, is mapped for so many words, and nobody writes to it.
    unsafe { std::slice::from_raw_parts(mapped.cast(), words) }
}

/// Cut to 32 bits their number would be 0, and the answer to wait.
#[test]
fn the_number_of_records_is_taken_whole() {
    let words = only_read((1 << 32) * boundary::RECORD_WORDS);
    let records = boundary::records_in(words);
    assert_eq!(boundary::count_records(3, records), 3);
    assert_eq!(boundary::count_records(3, &records[..0]), 0);
}
