//! How much room a table has in its view, as document 02 has it. The library alone decides who is refused as full; this says to
//! people what is left, and why.

use crate::commands::count::quorum;
use crate::image::{Header, MOST_ROWS};

/// "512 less the start rows, divided by f+1 and rounded down": what a box may add in its view. With f+1 such shares added to
/// them, the start rows still go into one table, so that there is room for the merge of f+1 tables.
pub fn share(header: &Header) -> u32 {
    of_view(header.n, header.start_rows)
}

/// The share of a view that begins with so many rows, in a group of n boxes.
fn of_view(n: u8, start_rows: u32) -> u32 {
    (MOST_ROWS - start_rows) / quorum(n) as u32
}

/// "the rows added since its view began", whichever messages added them.
pub fn added(header: &Header) -> u32 {
    header.rows - header.start_rows
}

/// How many rows may still be added in this view. A table that was filled before document 02 was kept may have more rows than its
/// share, and then has no room.
pub fn left(header: &Header) -> u32 {
    share(header).saturating_sub(added(header))
}

/// How many rows may be added in a view that begins with the rows of this table. No box knows more: the tables of others may bring
/// further rows into the merge, and a merge without this table may leave some out.
pub fn after_view_change(header: &Header) -> u32 {
    of_view(header.n, header.rows)
}
