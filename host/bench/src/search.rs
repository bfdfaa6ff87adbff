//! The search for a stamp, alone: what it takes to come to a row, or to find that there is none.

use crate::{Side, Work, LIBRARY, TWIN, WALK};
use samples::table::{HEADER_LENGTH, ROW_LENGTH};
use samples::{random, Dice};

/// The longest body.
const BODY_LENGTH: usize = 72;

/// A table in which one stamp is looked up, all rows with the longest bodies. Either it is that of the last row, or it is
/// one in the middle that no row has.
pub struct Searching<const LAST: bool> {
    rows: usize,
    image: Vec<u8>,
    stamp: u64,
    /// The body that is handed out.
    body: Vec<u8>,
    /// For each time a buffer that the body is copied to, and its length.
    found: Vec<(Vec<u8>, usize)>,
}

impl<const LAST: bool> Work for Searching<LAST> {
    const NAME: &'static str = if LAST {
        "search-last"
    } else {
        "search-missing"
    };
    const CALL: Option<&'static str> = None;
    const SIDES: &'static [Side] = &[LIBRARY, TWIN, WALK];
    const ABOUT: &'static str = if LAST {
        "\
`trial_held_body`, which is no public call, looks the stamp of the last row up in a table and copies its body out,
against the same in safe Rust. The input is a table by the rules whose rows have 4 reads and 4 writes each. Beside it
stands, as walk, the twin with a search that walks the rows from the top. The second program has no search, since it
keeps rows in a map of Rust's library. The bytes are those of all rows without their bodies, of which halving reads
few."
    } else {
        "\
The same sides look a stamp up that the table does not hold, between the two rows in its middle. The walk passes half
of the rows."
    };

    /// A stamp that is missing is that of a row which was taken out.
    fn of(rows: usize) -> Searching<LAST> {
        let made = if LAST { rows } else { rows + 1 };
        let mut table = random::full_table(&mut Dice::seeded(1), made);
        table.start_rows = 0;
        let (stamp, body) = if LAST {
            (table.rows[rows - 1].stamp, table.rows[rows - 1].body())
        } else {
            (table.rows.remove(rows / 2).stamp, Vec::new())
        };
        Searching {
            rows,
            image: table.image(),
            stamp,
            body,
            found: Vec::new(),
        }
    }

    /// A search is over in less than a microsecond, and its table is the same each time.
    fn times_a_round(_: usize) -> usize {
        1_000
    }

    fn bytes(&self) -> usize {
        ROW_LENGTH * self.rows
    }

    fn get_ready(&mut self, times: usize) {
        let fresh = || (vec![0; BODY_LENGTH], usize::MAX);
        self.found.resize_with(times, fresh);
        for (out, length) in &mut self.found {
            out.fill(0);
            *length = usize::MAX;
        }
    }

    fn done_by(&mut self, side: Side, times: usize) {
        let held_body = side.held_body.expect("a side that looks stamps up");
        for (out, length) in &mut self.found[..times] {
            // The image is one by the rules, of so many rows, and the buffer has room for the longest body.
            *length = unsafe { held_body(&self.image, self.rows, self.stamp, out) };
        }
    }

    fn assert_done(&self, side: Side) {
        for (out, length) in &self.found {
            // No body has one byte, so a length that does not fit the buffer is another row.
            let body = out.get(..*length).unwrap_or(&[0]);
            assert!(body == self.body, "{} found another row", side.name);
        }
    }
}

/// The library's lookup in an image, whose rows begin behind the header.
///
/// # Safety
///
/// As for `trial::held_body`.
pub unsafe fn held_body(image: &[u8], rows: usize, stamp: u64, out: &mut [u8]) -> usize {
    trial::held_body(image, HEADER_LENGTH, rows, stamp, out)
}
