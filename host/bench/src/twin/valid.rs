//! Validity of an image as the proved library walks it: the same tests in the same order.

use super::{u32_at, u64_at, ACCESS_LENGTH, HEADER_LENGTH, ROW_LENGTH};

pub(super) const MOST_ROWS: u32 = 512;
const BAD_TABLE: u64 = 2;

/// The answer as the library codes it: the image's length from bit 16 on, or the number of a bad table.
pub fn valid_answer(bytes: &[u8]) -> u64 {
    match image_length(bytes) {
        Some(length) => (length as u64) << 16,
        None => BAD_TABLE,
    }
}

pub(super) struct Header {
    format: u8,
    pub(super) box_number: u8,
    pub(super) n: u8,
    pub(super) mode: u8,
    pub(super) rows: u32,
    pub(super) view: u32,
    pub(super) promised: u32,
    pub(super) start_rows: u32,
    pub(super) length: u32,
}

impl Header {
    pub(super) fn read(bytes: &[u8]) -> Header {
        Header {
            format: bytes[0],
            box_number: bytes[1],
            n: bytes[2],
            mode: bytes[3],
            rows: u32_at(bytes, 4),
            view: u32_at(bytes, 8),
            promised: u32_at(bytes, 12),
            start_rows: u32_at(bytes, 16),
            length: u32_at(bytes, 20),
        }
    }

    fn is_valid(&self, lent: usize) -> bool {
        self.format == 1 && self.box_is_valid() && self.mode_is_valid() && self.fits(lent)
    }

    fn box_is_valid(&self) -> bool {
        matches!(self.n, 3 | 5 | 7) && self.box_number < self.n
    }

    fn mode_is_valid(&self) -> bool {
        match self.mode {
            0 => self.promised == self.view,
            1 => self.view < self.promised,
            _ => false,
        }
    }

    fn fits(&self, lent: usize) -> bool {
        self.start_rows <= self.rows
            && self.rows <= MOST_ROWS
            && self.length as usize <= lent
            && HEADER_LENGTH + ROW_LENGTH * self.rows as usize <= self.length as usize
    }
}

#[derive(Clone, Copy)]
pub(super) struct Row {
    pub(super) stamp: u64,
    pub(super) retry: u64,
    offset: u32,
    pub(super) reads: u8,
    pub(super) writes: u8,
    pub(super) prepare: u8,
    pub(super) outcome: u8,
}

impl Row {
    pub(super) fn read(image: &[u8], index: usize) -> Row {
        let at = HEADER_LENGTH + ROW_LENGTH * index;
        Row {
            stamp: u64_at(image, at),
            retry: u64_at(image, at + 8),
            offset: u32_at(image, at + 16),
            reads: image[at + 20],
            writes: image[at + 21],
            prepare: image[at + 22],
            outcome: image[at + 23],
        }
    }

    fn body_length(&self) -> usize {
        ACCESS_LENGTH * (usize::from(self.reads) + usize::from(self.writes))
    }

    /// The part of the image where the body lies.
    pub(super) fn body<'a>(&self, image: &'a [u8]) -> &'a [u8] {
        let from = self.offset as usize;
        &image[from..from + self.body_length()]
    }

    fn is_valid(&self, image: &[u8], last: u64, due: usize, end: usize) -> bool {
        self.fields_are_valid() && self.is_in_place(last, due) && self.body_is_valid(image, end)
    }

    fn fields_are_valid(&self) -> bool {
        is_stamp(self.stamp)
            && counts_are_valid(self.reads, self.writes)
            && codes_are_valid(self.prepare, self.outcome)
            && retry_is_valid(self.prepare, self.retry)
    }

    fn is_in_place(&self, last: u64, due: usize) -> bool {
        self.offset as usize == due && last < self.stamp
    }

    fn body_is_valid(&self, image: &[u8], end: usize) -> bool {
        let from = self.offset as usize;
        let to = from + self.body_length();
        if to > end {
            return false;
        }
        let (reads, writes) = image[from..to].split_at(ACCESS_LENGTH * usize::from(self.reads));
        accesses_are_valid(reads, self.stamp - 1) && accesses_are_valid(writes, u64::MAX)
    }
}

pub(super) fn is_stamp(number: u64) -> bool {
    0 < number && number < 1 << 48
}

pub(super) fn counts_are_valid(reads: u8, writes: u8) -> bool {
    reads <= 4 && writes <= 4 && 0 < reads + writes
}

fn codes_are_valid(prepare: u8, outcome: u8) -> bool {
    prepare <= 8 && outcome <= 4 && 0 < prepare + outcome
}

pub(super) fn retry_is_valid(prepare: u8, retry: u64) -> bool {
    if prepare == 4 || prepare == 8 {
        is_stamp(retry)
    } else {
        retry == 0
    }
}

/// Registers rise, and no number is above the greatest allowed.
pub(super) fn accesses_are_valid(accesses: &[u8], greatest: u64) -> bool {
    let mut low = 0;
    for access in accesses.chunks_exact(ACCESS_LENGTH) {
        let register = access[0];
        if register < low || 64 <= register || greatest < u64_at(access, 1) {
            return false;
        }
        low = register + 1;
    }
    true
}

fn rows_are_valid(image: &[u8], rows: usize, end: usize) -> bool {
    let mut last = 0;
    let mut due = HEADER_LENGTH + ROW_LENGTH * rows;
    for index in 0..rows {
        let row = Row::read(image, index);
        if !row.is_valid(image, last, due, end) {
            return false;
        }
        last = row.stamp;
        due += row.body_length();
    }
    due == end
}

/// The length of the image that the bytes begin with, if they do.
pub(super) fn image_length(bytes: &[u8]) -> Option<usize> {
    if bytes.len() < HEADER_LENGTH {
        return None;
    }
    let header = Header::read(bytes);
    let end = header.length as usize;
    let good = header.is_valid(bytes.len()) && rows_are_valid(bytes, header.rows as usize, end);
    good.then_some(end)
}

#[cfg(test)]
mod tests {
    use super::valid_answer;
    use samples::damage::{self, ALWAYS_IMAGES};
    use samples::{random, Dice, Tally, MOST_ROWS};

    /// Whether the bytes begin with an image, on which the twin and the second program have to agree.
    fn judged(kind: &str, bytes: &[u8]) -> bool {
        let found = reference::Table::parse(bytes);
        let expected = found
            .as_ref()
            .map_or(2, |(_, length)| (*length as u64) << 16);
        assert_eq!(valid_answer(bytes), expected, "{}: {:02x?}", kind, bytes);
        found.is_some()
    }

    #[test]
    fn the_twin_judges_as_the_second_program() {
        let mut dice = Dice::seeded(1);
        let mut tally = Tally::default();
        let mut judge = |kind: &str, bytes: &[u8]| tally.count(kind, judged(kind, bytes));
        for place in 0..30 {
            let table = random::table(&mut dice, 3 + place % 6);
            damage::fields_overwritten(&table, &[0; 100], &mut judge);
            damage::counts_about_the_limit(&mut dice, &table, 1, &mut judge);
            (0..3).for_each(|index| damage::gaps(&table, index, &mut judge));
            damage::shared_bodies(&table, 1, &mut judge);
            damage::bodies_out_of_order(&table, 1, &mut judge);
            damage::cut_and_followed(&mut dice, &table, &mut judge);
            damage::rows_about_the_limit(&mut dice, &mut judge);
        }
        tally.assert_both_verdicts_met(20, &ALWAYS_IMAGES);
        assert!(tally.samples() > 100_000, "{}", tally.samples());
    }

    #[test]
    fn the_twin_finds_the_images_that_are_measured() {
        for rows in [64, 256, MOST_ROWS] {
            let image = random::full_table(&mut Dice::seeded(1), rows).image();
            assert!(judged("measured", &image));
        }
    }
}
