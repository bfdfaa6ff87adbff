//! A row added at the front of a table: what both sides move.

use crate::{Side, Work, LIBRARY, TWIN};
use samples::table::{HEADER_LENGTH, ROW_LENGTH};
use samples::{random, Dice};

/// Tables without their first row, which is added to them, all rows with the longest bodies.
pub struct Inserting {
    /// The image before the row is added, and the one after it.
    before: Vec<u8>,
    after: Vec<u8>,
    /// The row as it is lent, with its body right behind it.
    row: Vec<u8>,
    /// A buffer for each time, as long as the image after it.
    tables: Vec<Vec<u8>>,
}

impl Work for Inserting {
    const NAME: &'static str = "insert";
    const SIZES: [usize; 3] = [64, 256, 511];
    const CALL: Option<&'static str> = None;
    const SIDES: &'static [Side] = &[LIBRARY, TWIN];
    const ABOUT: &'static str = "\
`trial_add_row`, which is no public call, adds a row at the front of a table, against the same moves in safe Rust.
That is the change that moves most. The second program changes no table in its place. The input is a table by the
rules whose rows have 4 reads and 4 writes each, and one row more. Each side adds the row to its own copies of the
table, which are made before the clock runs, in the same buffers and in turns.";

    fn of(rows: usize) -> Inserting {
        let mut table = random::full_table(&mut Dice::seeded(1), rows + 1);
        table.start_rows = 0;
        let after = table.image();
        let row = table.rows.remove(0);
        Inserting {
            before: table.image(),
            after,
            row: [row.head(ROW_LENGTH), row.body()].concat(),
            tables: Vec::new(),
        }
    }

    /// All rows and bodies move, and the header stays.
    fn bytes(&self) -> usize {
        self.before.len() - HEADER_LENGTH
    }

    fn get_ready(&mut self, times: usize) {
        self.tables.resize(times, vec![0; self.after.len()]);
        for table in &mut self.tables {
            let (image, room) = table.split_at_mut(self.before.len());
            image.copy_from_slice(&self.before);
            room.fill(0);
        }
    }

    fn done_by(&mut self, side: Side, times: usize) {
        let add_row = side.add_row.expect("a side that adds rows");
        for table in &mut self.tables[..times] {
            // The buffer begins with an image that lacks this row, all of whose stamps are higher, and has room for it.
            unsafe { add_row(table, 0, &self.row) };
        }
    }

    fn assert_done(&self, side: Side) {
        for table in &self.tables {
            assert!(*table == self.after, "{} left other bytes", side.name);
        }
    }
}
