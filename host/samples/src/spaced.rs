//! Tables whose stamps stand evenly apart, and the stamps to search them for: every row and every gap.

use crate::{random, Dice, Row, Table};
use std::collections::BTreeSet;

/// A table of so many rows whose stamps are so far apart, beginning with this one. Each row writes its own stamp, so
/// that no two have the same body.
pub fn table(dice: &mut Dice, rows: usize, first: u64, apart: u64) -> Table {
    let row = |place: usize| {
        let stamp = first + apart * place as u64;
        let mut row = random::row(dice, stamp, (place % 4, 1 + place % 4));
        row.writes[0].number = stamp;
        row
    };
    Table::in_view_0((0..rows).map(row).collect())
}

/// Every stamp of the table, one before the first and one behind the last, and one in each gap between two of them.
pub fn rows_and_gaps(table: &Table) -> BTreeSet<u64> {
    let behind = |row: &Row| [row.stamp, row.stamp + 1];
    let before = table.rows.first().map_or(1, |row| row.stamp - 1);
    let rows = table.rows.iter().flat_map(behind);
    rows.chain([before]).collect()
}
