//! The room that a box has for new stamps, as the header of its table tells it.

use crate::group::Group;

/// What room there was before a message came to a box.
#[derive(Clone, Copy)]
pub struct Room {
    /// How many rows the box held.
    pub rows: u32,
    /// Whether the box had room for a new stamp.
    pub in_box: bool,
    /// Whether any box of the group had.
    pub in_group: bool,
}

impl Group {
    pub fn room(&self, box_number: usize) -> Room {
        Room {
            rows: self.rows_of(box_number).0,
            in_box: self.has_room(box_number),
            in_group: self.boxes().any(|other| self.has_room(other)),
        }
    }

    /// "a box refuses a new stamp as full once the rows added since its view began reach 512 less the start rows, divided by
    /// f+1 and rounded down": whether they do not reach it yet. A small model has its own number for 512.
    pub fn has_room(&self, box_number: usize) -> bool {
        let (rows, start_rows) = self.rows_of(box_number);
        let left = self.machine.model.rows as u32 - start_rows;
        rows - start_rows < left / self.counts.quorum as u32
    }
}
