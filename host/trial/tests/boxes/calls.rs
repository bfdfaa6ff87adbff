//! The three calls, each made by the library and by the second program, which have to agree on the number and on every
//! byte, lent or not.

use crate::lent::Lent;
use crate::second;
use samples::{Dice, TABLE_BYTES};

/// The most boxes that one lent buffer has here, the most that one merge is asked for, and the longest reply buffer.
const MOST_BOXES: usize = 8;
const MOST_NAMED: usize = 9;
const LONGEST_REPLY: usize = 40;
/// Bytes more than are needed.
const MORE: usize = 1_003;

/// How many bytes are lent to a merge.
#[derive(Clone, Copy, Debug)]
pub struct Lengths {
    pub tables: usize,
    pub run: usize,
    pub out: usize,
}

pub struct Calls {
    pub dice: Dice,
    pub tables: Lent,
    pub reply: Lent,
    pub run: Lent,
    pub out: Lent,
    /// How many were compared.
    pub compared: u64,
}

impl Calls {
    pub fn seeded(seed: u64) -> Calls {
        Calls::with_tables(seed, TABLE_BYTES * MOST_BOXES + MORE)
    }

    /// With a buffer for so many bytes of tables.
    pub fn with_tables(seed: u64, bytes: usize) -> Calls {
        let mut dice = Dice::seeded(seed);
        let mut dirty = |longest| Lent::dirty(&mut dice, longest);
        Calls {
            tables: dirty(bytes),
            reply: dirty(LONGEST_REPLY),
            run: dirty(TABLE_BYTES * MOST_NAMED + MORE),
            out: dirty(TABLE_BYTES + MORE),
            compared: 0,
            dice,
        }
    }

    /// What a box's table buffer holds.
    pub fn table(&self, box_number: u8) -> &[u8] {
        let held = self.tables.held();
        &held[second::buffer_of(held.len(), box_number)]
    }

    /// The image that a box's table buffer begins with.
    pub fn image(&self, box_number: u8) -> &[u8] {
        let table = self.table(box_number);
        &table[..number_at(table, 20) as usize]
    }

    /// The image that the last merge wrote.
    pub fn merged(&self) -> &[u8] {
        let out = self.out.held();
        &out[..number_at(out, 20) as usize]
    }

    /// Puts bytes at the start of a box's table buffer.
    pub fn hold(&mut self, box_number: u8, bytes: &[u8]) {
        let place = TABLE_BYTES * usize::from(box_number);
        self.tables.put(place, bytes);
    }

    /// Room for this many boxes, and now and then for more.
    pub fn room_for(&mut self, boxes: usize) -> usize {
        let needed = TABLE_BYTES * boxes;
        needed + self.dice.one_of(&[0, 0, 1, MORE])
    }

    pub fn start_fresh(&mut self, n: u8, length: usize) -> u8 {
        let found = trial::start_fresh(self.tables.of_library(length), n);
        let number = second::start_fresh(self.tables.of_second(length), n);
        let differs = [("tables", self.tables.differs_at())];
        self.compare((found, number), &differs, || {
            format!("n {}, {} bytes", n, length)
        });
        number
    }

    /// A message at a box, with so many bytes of tables lent and a reply buffer of this length.
    pub fn arrive(
        &mut self,
        (tables, reply): (usize, usize),
        box_number: u8,
        message: &[u8],
    ) -> u8 {
        self.reply.make_dirty();
        let lent = message.to_vec();
        let found = trial::arrive(
            self.tables.of_library(tables),
            box_number,
            &lent,
            self.reply.of_library(reply),
        );
        let number = second::arrive(
            self.tables.of_second(tables),
            box_number,
            message,
            self.reply.of_second(reply),
        );
        assert!(lent == message, "the message is changed");
        let differs = [
            ("tables", self.tables.differs_at()),
            ("reply", self.reply.differs_at()),
        ];
        self.compare((found, number), &differs, || {
            let shown = &message[..message.len().min(100)];
            let lengths = (tables, reply);
            format!("box {}, lent {:?}, {:02x?}", box_number, lengths, shown)
        });
        number
    }

    pub fn merge_boxes(&mut self, lengths: Lengths, boxes: &[u8], view: u32) -> u8 {
        // Half of the time the last run and output are still there.
        if self.dice.in_a_hundred(50) {
            self.run.make_dirty();
            self.out.make_dirty();
        }
        let named = boxes.to_vec();
        let found = trial::merge_boxes(
            self.tables.of_library(lengths.tables),
            &named,
            view,
            self.run.of_library(lengths.run),
            self.out.of_library(lengths.out),
        );
        let number = second::merge_boxes(
            self.tables.of_second(lengths.tables),
            boxes,
            view,
            self.run.of_second(lengths.run),
            self.out.of_second(lengths.out),
        );
        assert!(named == boxes, "the names are changed");
        let differs = [
            ("tables", self.tables.differs_at()),
            ("run", self.run.differs_at()),
            ("output", self.out.differs_at()),
        ];
        self.compare((found, number), &differs, || {
            format!("boxes {:?}, view {}, {:?}", boxes, view, lengths)
        });
        number
    }

    fn compare(
        &mut self,
        (found, number): (u8, u8),
        differs: &[(&str, Option<isize>)],
        call: impl Fn() -> String,
    ) {
        let same = found == number && differs.iter().all(|(_, place)| place.is_none());
        assert!(
            same,
            "number {} and not {}; first bytes that differ: {:?}\n{}",
            found,
            number,
            differs,
            call()
        );
        self.compared += 1;
    }
}

/// A number of 4 bytes in a header.
pub fn number_at(table: &[u8], at: usize) -> u32 {
    u32::from_be_bytes(table[at..at + 4].try_into().expect("four bytes"))
}
