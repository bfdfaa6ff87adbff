//! A row added as the proved library adds it: the same parts moved in the same order, and all offsets laid anew.

use super::{put_u32, u32_at, ACCESS_LENGTH, HEADER_LENGTH, ROW_LENGTH};

/// Adds the row that lent bytes begin with, at an index; its offset says where in the lent bytes its body lies.
pub fn add_row(table: &mut [u8], index: usize, row: &[u8]) {
    let body_from = u32_at(row, 16) as usize;
    let body = &row[body_from..body_from + body_length(row)];
    add(table, index, &row[..ROW_LENGTH], body);
}

/// Adds a row with its body at an index, whatever offset the row has.
pub(super) fn add(table: &mut [u8], index: usize, row: &[u8], body: &[u8]) {
    let rows = u32_at(table, 4) as usize;
    let end = u32_at(table, 20) as usize;
    let at = HEADER_LENGTH + ROW_LENGTH * index;
    let middle = if index < rows {
        u32_at(table, at + 16) as usize
    } else {
        end
    };
    slip_in(table, at, middle, end, row, body);
    lay_offsets(table, rows + 1);
    put_u32(table, 4, rows as u32 + 1);
    put_u32(table, 20, (end + ROW_LENGTH + body.len()) as u32);
}

/// Puts a row in at `at` and a body in at `middle`, from the end down.
fn slip_in(table: &mut [u8], at: usize, middle: usize, end: usize, row: &[u8], body: &[u8]) {
    let body_at = middle + ROW_LENGTH;
    table.copy_within(middle..end, body_at + body.len());
    table[body_at..body_at + body.len()].copy_from_slice(body);
    table.copy_within(at..middle, at + ROW_LENGTH);
    table[at..at + ROW_LENGTH].copy_from_slice(row);
}

fn lay_offsets(table: &mut [u8], rows: usize) {
    let bodies = HEADER_LENGTH + ROW_LENGTH * rows;
    let mut due = bodies;
    for row in table[HEADER_LENGTH..bodies].chunks_exact_mut(ROW_LENGTH) {
        put_u32(row, 16, due as u32);
        due += body_length(row);
    }
}

fn body_length(row: &[u8]) -> usize {
    ACCESS_LENGTH * (usize::from(row[20]) + usize::from(row[21]))
}

#[cfg(test)]
mod tests {
    use super::add_row;
    use samples::table::ROW_LENGTH;
    use samples::{random, Dice, MOST_ROWS};

    /// A buffer that begins with an image and has random bytes behind it, after a row was added by the twin and, as it
    /// should be to the byte, by the library.
    fn after(mut table: Vec<u8>, index: usize, row: &[u8]) -> Vec<u8> {
        let mut by_library = table.clone();
        // The row was taken out of this table at this index, and there is room for it.
        unsafe { trial::add_row(&mut by_library, index, row) };
        add_row(&mut table, index, row);
        assert!(table == by_library, "other bytes for row {}", index);
        table
    }

    #[test]
    fn the_twin_adds_a_row_as_the_library_does() {
        let mut dice = Dice::seeded(1);
        for rows in (1..200).chain([MOST_ROWS]) {
            let whole = random::table(&mut dice, rows);
            for index in [0, dice.index(rows), rows - 1] {
                let mut rest = whole.clone();
                let row = rest.rows.remove(index);
                let lent = [row.head(ROW_LENGTH), row.body()].concat();
                let room = dice.bytes(lent.len() + 10);
                let found = after([rest.image(), room].concat(), index, &lent);
                assert!(found[..whole.length()] == whole.image());
            }
        }
    }
}
