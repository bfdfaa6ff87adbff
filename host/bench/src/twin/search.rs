//! The search for a stamp among the rows of an image: by halving, as the proved library goes, and by a walk from the top, as it
//! went before.

use super::valid::Row;
use super::{u64_at, HEADER_LENGTH, ROW_LENGTH};

/// A way to find a stamp.
pub trait Search: Copy + 'static {
    /// The index of the stamp's row, or else the one that its row would have.
    fn find(image: &[u8], rows: u32, stamp: u64) -> Result<usize, usize>;
}

/// Of the rows that are left the one in the middle has the stamp, or tells on which side of it the search goes on.
#[derive(Clone, Copy)]
pub struct Halving;

/// The first row whose stamp is not lower settles it.
#[derive(Clone, Copy)]
pub struct Walk;

impl Search for Halving {
    fn find(image: &[u8], rows: u32, stamp: u64) -> Result<usize, usize> {
        let (mut low, mut high) = (0, rows as usize);
        while low < high {
            let middle = low + (high - low) / 2;
            let here = stamp_at(image, middle);
            if here == stamp {
                return Ok(middle);
            }
            if here < stamp {
                low = middle + 1;
            } else {
                high = middle;
            }
        }
        Err(low)
    }
}

impl Search for Walk {
    fn find(image: &[u8], rows: u32, stamp: u64) -> Result<usize, usize> {
        for index in 0..rows as usize {
            let here = stamp_at(image, index);
            if here == stamp {
                return Ok(index);
            }
            if stamp < here {
                return Err(index);
            }
        }
        Err(rows as usize)
    }
}

fn stamp_at(image: &[u8], index: usize) -> u64 {
    u64_at(image, HEADER_LENGTH + ROW_LENGTH * index)
}

/// Copies the body of a stamp's row out, and returns its length, which is 0 if no row has the stamp.
pub fn held_body<S: Search>(image: &[u8], rows: usize, stamp: u64, out: &mut [u8]) -> usize {
    let row = match S::find(image, rows as u32, stamp) {
        Ok(index) => Row::read(image, index),
        Err(_) => return 0,
    };
    let body = row.body(image);
    out[..body.len()].copy_from_slice(body);
    body.len()
}

#[cfg(test)]
mod tests {
    use super::{Halving, Search, Walk};
    use samples::{random, Dice, Table, MOST_ROWS};

    /// The stamps of a table, and those beside each.
    fn stamps(table: &Table) -> Vec<u64> {
        let near = |stamp: u64| [stamp - 1, stamp, stamp + 1];
        let held = table.rows.iter().map(|row| row.stamp);
        held.flat_map(near).chain([0, 1, u64::MAX]).collect()
    }

    #[test]
    fn both_searches_find_the_place_of_a_stamp() {
        let mut dice = Dice::seeded(1);
        for rows in (0..40).chain([MOST_ROWS - 1, MOST_ROWS]) {
            let table = random::table(&mut dice, rows);
            let image = table.image();
            for stamp in stamps(&table) {
                let lower = table.rows.iter().filter(|row| row.stamp < stamp).count();
                let is_held = table.rows.iter().any(|row| row.stamp == stamp);
                let place = if is_held { Ok(lower) } else { Err(lower) };
                assert_eq!(Halving::find(&image, rows as u32, stamp), place);
                assert_eq!(Walk::find(&image, rows as u32, stamp), place);
            }
        }
    }
}
