//! Where the fields of an image stand, and which values are worth trying in each.

use crate::table::{ACCESS_LENGTH, HEADER_LENGTH, ROW_LENGTH};
use crate::{Table, GREATEST_STAMP};

pub struct Field {
    /// What it is, in the paper's words, and of which row.
    pub kind: String,
    pub place: usize,
    pub width: usize,
    /// What stands there.
    pub held: u64,
    /// Values worth trying there, and the one held among them.
    pub tries: Vec<u64>,
}

impl Field {
    /// The limits are values at which a rule may begin or cease to hold; their neighbours are tried as well.
    fn new(kind: String, place: usize, width: usize, held: u64, limits: &[u64]) -> Field {
        Field {
            kind,
            place,
            width,
            held,
            tries: tries(width, held, limits),
        }
    }

    pub fn put(&self, image: &mut [u8], value: u64) {
        let bytes = value.to_be_bytes();
        image[self.place..self.place + self.width].copy_from_slice(&bytes[8 - self.width..]);
    }
}

/// Every value of one byte. Of a wider field the values about each limit, those about the ends of its range and of
/// narrower ranges, the one held, and that one with each of its bits turned.
fn tries(width: usize, held: u64, limits: &[u64]) -> Vec<u64> {
    if width == 1 {
        return (0..=255).collect();
    }
    let greatest = u64::MAX >> (64 - 8 * width);
    let ends = [0, 1 << 31, 1 << 32, GREATEST_STAMP, 1 << 63, greatest, held];
    let mut tries: Vec<u64> = ends
        .iter()
        .chain(limits)
        .flat_map(|limit| [limit.wrapping_sub(1), *limit, limit.wrapping_add(1)])
        .chain((0..8 * width).map(|bit| held ^ (1 << bit)))
        .filter(|value| *value <= greatest)
        .collect();
    tries.sort_unstable();
    tries.dedup();
    tries
}

/// The fields of the header, and of the first, the middle and the last row with their bodies.
pub fn fields(table: &Table) -> Vec<Field> {
    let mut fields = of_header(table);
    let last = table.rows.len().saturating_sub(1);
    for (which, index) in [("first", 0), ("middle", last / 2), ("last", last)] {
        if index < table.rows.len() {
            fields.extend(of_row(table, which, index));
            fields.extend(of_body(table, which, index));
        }
    }
    fields
}

fn of_header(table: &Table) -> Vec<Field> {
    let rows = table.rows.len() as u64;
    let (view, promised) = (u64::from(table.view), u64::from(table.promised));
    let length = table.length() as u64;
    let lengths = [24, 24 + 24 * rows, length - 9, length, length + 9];
    let field = |kind: &str, place, width, held, limits: &[u64]| {
        Field::new(kind.to_string(), place, width, held, limits)
    };
    vec![
        field("format", 0, 1, 1, &[]),
        field("box", 1, 1, u64::from(table.box_number), &[]),
        field("n", 2, 1, u64::from(table.n), &[]),
        field("mode", 3, 1, u64::from(table.mode), &[]),
        field("rows", 4, 4, rows, &[512]),
        field("view", 8, 4, view, &[promised]),
        field("promised view", 12, 4, promised, &[view]),
        field("start rows", 16, 4, u64::from(table.start_rows), &[rows]),
        field("total length", 20, 4, length, &lengths),
    ]
}

fn of_row(table: &Table, which: &str, index: usize) -> Vec<Field> {
    let row = &table.rows[index];
    let at = HEADER_LENGTH + ROW_LENGTH * index;
    let (reads, writes) = (row.reads.len() as u64, row.writes.len() as u64);
    let offset = table.body_place(index) as u64;
    let offsets = [offset - 9, offset + 9, table.body_place(0) as u64];
    let field = |kind: &str, from, width, held, limits: &[u64]| {
        let kind = format!("{} of the {} row", kind, which);
        Field::new(kind, at + from, width, held, limits)
    };
    vec![
        field("stamp", 0, 8, row.stamp, &limits_of_stamp(table, index)),
        field("retry stamp", 8, 8, row.retry, &[row.stamp]),
        field("body offset", 16, 4, offset, &offsets),
        field("read count", 20, 1, reads, &[]),
        field("write count", 21, 1, writes, &[]),
        field("prepare byte", 22, 1, u64::from(row.prepare), &[]),
        field("outcome byte", 23, 1, u64::from(row.outcome), &[]),
    ]
}

/// The stamps beside it, and the versions that it read.
fn limits_of_stamp(table: &Table, index: usize) -> Vec<u64> {
    let beside = [index.checked_sub(1), index.checked_add(1)];
    let rows = beside.iter().flatten();
    let stamps = rows.filter_map(|other| table.rows.get(*other).map(|row| row.stamp));
    let versions = table.rows[index].reads.iter().map(|read| read.number);
    stamps.chain(versions).collect()
}

/// Register and number of each access.
fn of_body(table: &Table, which: &str, index: usize) -> Vec<Field> {
    let row = &table.rows[index];
    let kind = |what: &str| format!("{} of the {} row", what, which);
    let reads = row
        .reads
        .iter()
        .map(|read| ("read register", "version", read));
    let writes = row
        .writes
        .iter()
        .map(|write| ("write register", "value", write));
    let mut fields = Vec::new();
    let mut at = table.body_place(index);
    for (register, number, held) in reads.chain(writes) {
        let held_register = u64::from(held.register);
        fields.push(Field::new(kind(register), at, 1, held_register, &[]));
        fields.push(Field::new(
            kind(number),
            at + 1,
            8,
            held.number,
            &[row.stamp],
        ));
        at += ACCESS_LENGTH;
    }
    fields
}
