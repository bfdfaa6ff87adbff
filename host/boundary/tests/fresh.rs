//! The fresh call against the second program: the number, and every byte of the buffer.

use samples::{random, Dice, MOST_ROWS, TABLE_BYTES};

/// Two copies of one buffer. Both programs get a part of theirs, and all of both is compared.
struct Lent {
    before: Vec<u8>,
    library: Vec<u8>,
    second: Vec<u8>,
}

impl Lent {
    fn holding(before: Vec<u8>) -> Lent {
        Lent {
            library: before.clone(),
            second: before.clone(),
            before,
        }
    }

    /// Random bytes, so that every byte written is seen.
    fn random(seed: u64, length: usize) -> Lent {
        Lent::holding(Dice::seeded(seed).bytes(length))
    }

    /// The number that both programs give for the part from a place on, when they leave the same bytes everywhere.
    /// Both buffers are then as they were.
    fn fresh(&mut self, from: usize, length: usize, n: u8, box_number: u8) -> u8 {
        let part = from..from + length;
        let number = reference::fresh(&mut self.second[part.clone()], n, box_number);
        let found = boundary::fresh(&mut self.library[part], n, box_number);
        let case = (from, length, n, box_number);
        assert_eq!(found, number, "{:?}", case);
        assert!(self.library == self.second, "bytes differ: {:?}", case);
        if number == 0 {
            self.library.copy_from_slice(&self.before);
            self.second.copy_from_slice(&self.before);
        } else {
            assert!(self.library == self.before, "a refusal wrote: {:?}", case);
        }
        number
    }
}

#[test]
fn every_box_of_every_n_is_answered_as_by_the_second_program() {
    let mut lent = Lent::random(1, TABLE_BYTES);
    let mut met = [0; 12];
    for (n, box_number) in (0..=255).flat_map(|n| (0..=255).map(move |b| (n, b))) {
        met[usize::from(lent.fresh(0, TABLE_BYTES, n, box_number))] += 1;
    }
    assert_eq!((met[0], met[3]), (15, 65_536 - 15));
}

#[test]
fn a_short_buffer_is_refused_before_n_and_box_are_looked_at() {
    for length in [0, 1, 24, TABLE_BYTES - 1] {
        let mut lent = Lent::random(2, length);
        for (n, box_number) in (0..=255).flat_map(|n| (0..=255).map(move |b| (n, b))) {
            assert_eq!(lent.fresh(0, length, n, box_number), 1);
        }
    }
}

#[test]
fn every_length_about_the_limits_is_answered_as_by_the_second_program() {
    let mut lent = Lent::random(3, 3 * TABLE_BYTES);
    let about = (0..100).chain(TABLE_BYTES - 100..TABLE_BYTES + 100);
    let mut done = 0;
    for length in about.chain([65_535, 65_536, 65_537, 3 * TABLE_BYTES]) {
        for (n, box_number) in [(3, 0), (5, 4), (7, 6), (3, 3), (4, 0), (0, 0), (255, 254)] {
            done += u32::from(lent.fresh(0, length, n, box_number) == 0);
        }
    }
    assert_eq!(done, 3 * 104);
}

#[test]
fn a_buffer_may_begin_at_any_address() {
    let mut lent = Lent::random(4, TABLE_BYTES + 64);
    for from in 0..64 {
        assert_eq!(lent.fresh(from, TABLE_BYTES, 5, 3), 0);
        assert_eq!(lent.fresh(from, TABLE_BYTES - 1, 5, 3), 1);
    }
}

#[test]
fn what_the_buffer_held_makes_no_difference() {
    let mut dice = Dice::seeded(5);
    for rows in [0, 1, 2, 7, 100, MOST_ROWS] {
        let mut before = random::full_table(&mut dice, rows).image();
        before.resize(TABLE_BYTES + 10, 0);
        let mut lent = Lent::holding(before);
        for (n, box_number) in [(3, 0), (5, 0), (7, 6), (9, 0)] {
            let number = lent.fresh(0, TABLE_BYTES, n, box_number);
            assert_eq!(number, if n < 9 { 0 } else { 3 });
        }
    }
}

#[test]
fn the_fresh_image_of_box_0_of_3_is_that_of_the_paper() {
    let mut buffer = Dice::seeded(6).bytes(TABLE_BYTES);
    assert_eq!(boundary::fresh(&mut buffer, 3, 0), 0);
    let whole = [&[1, 0, 3, 0][..], &[0; 16], &[0, 0, 0, 0x18]].concat();
    assert_eq!(buffer[..24], whole[..]);
    assert_eq!(boundary::valid(&buffer), Ok(24));
}
