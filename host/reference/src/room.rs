//! How many rows a box may add in a view, as document 02 has it: what is left goes round among the tables of a merge.

use crate::group::Counts;
use crate::table::Table;
use crate::Model;

/// "512 less the start rows, divided by f+1 and rounded down". A table with more start rows than the model has nothing
/// left.
pub fn share(model: Model, table: &Table) -> usize {
    let left = model.rows.saturating_sub(table.start_rows);
    let tables = Counts::from_n(table.n)
        .expect("a group of 3, 5 or 7")
        .quorum;
    left / tables
}

/// "the rows added since its view began"
fn added(table: &Table) -> usize {
    table.rows.len() - table.start_rows
}

/// "a box refuses a new stamp as full once the rows added since its view began reach" its share.
pub fn has_room(model: Model, table: &Table) -> bool {
    added(table) < share(model, table)
}
