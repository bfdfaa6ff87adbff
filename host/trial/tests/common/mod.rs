//! A change of a table, made by the library and by the second program, and the buffers in which both make it.
#![allow(dead_code)] // each file of tests uses a part of this

mod change;
mod lent;

pub use change::Change;
pub use lent::Lent;

use reference::Model;
use samples::{random, Dice, Table, MOST_ROWS, TABLE_BYTES};
use std::collections::BTreeSet;

/// No rows, one, two, few, many, and as many as a table has at most.
pub const SIZES: [usize; 8] = [0, 1, 2, 3, 7, 100, MOST_ROWS - 1, MOST_ROWS];

/// The changes know no row limit of the paper: a row is added to fewer than 65,536.
const ROOMY: Model = Model {
    rows: 65_536,
    buffer: TABLE_BYTES,
};

/// The table as the second program reads it.
pub fn read(table: &Table) -> reference::Table {
    let found = reference::Table::parse_for(ROOMY, &table.image());
    found.expect("a table by the rules").0
}

/// A table of so many rows for every n and both modes.
pub fn tables(dice: &mut Dice, rows: usize) -> Vec<Table> {
    let every_mode = |n| [(n, 0), (n, 1)];
    let mut missing: BTreeSet<(u8, u8)> = [3, 5, 7].into_iter().flat_map(every_mode).collect();
    let mut found = Vec::new();
    while !missing.is_empty() {
        let table = random::table(dice, rows);
        if missing.remove(&(table.n, table.mode)) {
            found.push(table);
        }
    }
    found
}

/// The lengths of buffers for an image of so many bytes: those alone, the least of a table buffer, and more.
pub fn lengths(needed: usize) -> [usize; 3] {
    let least = needed.max(TABLE_BYTES);
    [needed, least, least + 10_007]
}

/// Tables of every size, n and mode, each in buffers of every length.
pub fn lent_tables(dice: &mut Dice) -> Vec<Lent> {
    let mut found = Vec::new();
    for rows in SIZES {
        for table in tables(dice, rows) {
            let lent_in = |length| Lent::holding(dice, read(&table), length);
            found.extend(lengths(table.length()).map(lent_in));
        }
    }
    found
}

/// The first row, the last and any, where there are rows.
pub fn some_rows(dice: &mut Dice, rows: usize) -> Vec<(&'static str, usize)> {
    match rows {
        0 => Vec::new(),
        _ => vec![("first", 0), ("last", rows - 1), ("any", dice.index(rows))],
    }
}
