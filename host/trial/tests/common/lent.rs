//! A buffer in which a table is changed.

use super::Change;
use reference::Table;
use samples::Dice;
use std::ops::Range;

/// A lent buffer that begins with the image of a table. Behind the image are random bytes, and on both sides of the
/// buffer are some that are not lent, so that every byte written is seen.
pub struct Lent {
    pub table: Table,
    bytes: Vec<u8>,
    part: Range<usize>,
}

impl Lent {
    /// It may begin at any address.
    pub fn holding(dice: &mut Dice, table: Table, length: usize) -> Lent {
        let begin = 1 + dice.index(64);
        let part = begin..begin + length;
        let mut bytes = dice.bytes(part.end + 64);
        let image = table.image();
        bytes[part.clone()][..image.len()].copy_from_slice(&image);
        Lent { table, bytes, part }
    }

    /// Whether it still begins with an image by the rules.
    pub fn is_image(&self) -> bool {
        Table::parse(&self.bytes[self.part.clone()]).is_some()
    }

    /// The same buffer after a change, on every byte of which both programs have to agree.
    pub fn after(&self, change: &Change) -> Lent {
        let table = change.by_second_program(&self.table);
        Lent {
            bytes: self.after_with(change, &table.image()),
            part: self.part.clone(),
            table,
        }
    }

    /// All bytes after a change by the library, which has to leave this image.
    pub fn after_with(&self, change: &Change, image: &[u8]) -> Vec<u8> {
        let expected = self.expected(image);
        let lent = change.lent().to_vec();
        let mut found = self.bytes.clone();
        change.by_library(&mut found[self.part.clone()]);
        let mut pairs = found.iter().zip(&expected);
        if let Some(place) = pairs.position(|(one, other)| one != other) {
            panic!(
                "byte {} is {} and not {}: {} rows in {} bytes, the image after it {}",
                place as isize - self.part.start as isize,
                found[place],
                expected[place],
                self.table.rows.len(),
                self.part.len(),
                image.len()
            );
        }
        assert!(change.lent() == lent, "what was lent to be read is changed");
        found
    }

    /// "After a call, bytes past the longer of the old and new image are unchanged; if the image shrank, the bytes given up
    /// are zero."
    fn expected(&self, image: &[u8]) -> Vec<u8> {
        let old_length = self.table.image().len();
        let mut bytes = self.bytes.clone();
        let buffer = &mut bytes[self.part.clone()];
        buffer[..image.len()].copy_from_slice(image);
        if image.len() < old_length {
            buffer[image.len()..old_length].fill(0);
        }
        bytes
    }
}
