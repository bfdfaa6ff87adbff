//! Tables about the last row that there is room for, and what came of new stamps there. How many rows those are is worked
//! out here once more, apart from the second program.

use crate::{random, Dice, Row, Table, MOST_ROWS};
use std::fmt::{self, Display, Formatter};

/// Every n of a group.
pub const GROUPS: [u8; 3] = [3, 5, 7];

/// Rows with which a view began: few, some, many, and all numbers about those that leave each group one row or none.
pub const START_ROWS: [usize; 17] = [
    0, 1, 2, 3, 100, 255, 400, 500, 503, 505, 506, 507, 508, 509, 510, 511, 512,
];

/// f+1: the tables that one merge takes.
pub fn tables_of_a_merge(n: u8) -> usize {
    1 + usize::from(n) / 2
}

/// "512 less the start rows, divided by f+1 and rounded down"
pub fn share(n: u8, start_rows: usize) -> usize {
    (MOST_ROWS - start_rows) / tables_of_a_merge(n)
}

/// Numbers of rows in a view that began with so many: one less than there is room for, that many, one more and all that a
/// table may have.
pub fn edge(n: u8, start_rows: usize) -> Vec<usize> {
    let last = start_rows + share(n, start_rows);
    let about = [last.wrapping_sub(1), last, last + 1, MOST_ROWS];
    let possible = |rows: &usize| (start_rows..=MOST_ROWS).contains(rows);
    let mut edge: Vec<usize> = about.into_iter().filter(possible).collect();
    edge.dedup();
    edge
}

/// Every n with the start rows and the rows about each of its last rows.
pub fn edges() -> Vec<(u8, usize, usize)> {
    let mut edges = Vec::new();
    for (n, start_rows) in GROUPS
        .iter()
        .flat_map(|n| START_ROWS.map(|start| (*n, start)))
    {
        edges.extend(
            edge(n, start_rows)
                .iter()
                .map(|rows| (n, start_rows, *rows)),
        );
    }
    edges
}

/// A normal table of a box of n with so many rows, in a view that began with so many of them; and a row of a stamp that it
/// does not hold, at any place.
pub fn table(dice: &mut Dice, n: u8, start_rows: usize, rows: usize) -> (Table, Row) {
    let mut table = random::table(dice, rows + 1);
    let any = dice.index(rows + 1);
    let new = table.rows.remove(dice.one_of(&[0, any, rows]));
    (table.n, table.box_number) = (n, table.box_number % n);
    (table.mode, table.promised) = (0, table.view);
    table.start_rows = start_rows as u32;
    (table, new)
}

/// What can come of a new stamp at the edge.
const ENDS: [&str; 3] = [
    "taken with the last row",
    "refused with rows left",
    "refused as the view begins",
];

/// How often a new stamp came to each of these ends, in groups of each n.
#[derive(Clone, Debug, Default, PartialEq, Eq)]
pub struct Ends([[u64; GROUPS.len()]; ENDS.len()]);

impl Ends {
    /// A new stamp that was refused as full, or taken, by a box whose table begins with these bytes after that.
    pub fn count(&mut self, is_full: bool, table: &[u8]) {
        let number_at = |at: usize| {
            let bytes = table[at..at + 4].try_into().expect("four bytes");
            u32::from_be_bytes(bytes) as usize
        };
        let (n, rows, start_rows) = (table[2], number_at(4), number_at(16));
        let is_last = rows == start_rows + share(n, start_rows);
        let met = [
            !is_full && is_last,
            is_full && rows < MOST_ROWS,
            is_full && rows == start_rows,
        ];
        let group = GROUPS.iter().position(|other| *other == n);
        let group = group.expect("the table of a group");
        for (counts, met) in self.0.iter_mut().zip(met) {
            counts[group] += u64::from(met);
        }
    }

    pub fn add(&mut self, other: &Ends) {
        let here = self.0.iter_mut().flatten();
        here.zip(other.0.iter().flatten())
            .for_each(|(count, more)| *count += more);
    }

    /// What was met more seldom than so often.
    pub fn missing(&self, least: u64) -> Vec<String> {
        let mut missing = Vec::new();
        for (end, counts) in ENDS.iter().zip(&self.0) {
            for (n, count) in GROUPS.iter().zip(counts) {
                if *count < least {
                    missing.push(format!("a new stamp {}, of {}: {} times", end, n, count));
                }
            }
        }
        missing
    }
}

/// A line for each end, a column for each group.
impl Display for Ends {
    fn fmt(&self, f: &mut Formatter) -> fmt::Result {
        write!(f, "| a new stamp | of 3 | of 5 | of 7 |\n|---|---|---|---|")?;
        for (end, counts) in ENDS.iter().zip(&self.0) {
            write!(f, "\n| {} |", end)?;
            counts
                .iter()
                .try_for_each(|count| write!(f, " {} |", count))?;
        }
        Ok(())
    }
}

#[cfg(test)]
mod tests {
    use super::{edge, share, Ends, GROUPS, START_ROWS};
    use crate::Table;

    /// "From a fresh group of three that is 256; of five, 170; of seven, 128."
    #[test]
    fn the_shares_from_fresh_are_those_of_the_paper() {
        assert_eq!(GROUPS.map(|n| share(n, 0)), [256, 170, 128]);
    }

    #[test]
    fn the_rows_about_the_last_one_are_as_many_as_a_table_may_have() {
        assert_eq!(edge(3, 0), [255, 256, 257, 512]);
        assert_eq!(edge(5, 507), [507, 508, 509, 512]);
        assert_eq!(edge(7, 509), [509, 510, 512]);
        assert_eq!(edge(3, 510), [510, 511, 512]);
        assert_eq!(edge(3, 511), [511, 512]);
        assert_eq!(edge(3, 512), [512]);
    }

    /// Every group has views among them with room for many, for one and for none.
    #[test]
    fn the_start_rows_leave_every_group_some_rows_and_one_and_none() {
        for n in GROUPS {
            let leave = |rows: usize| START_ROWS.iter().any(|start| share(n, *start) == rows);
            assert!(leave(0) && leave(1) && leave(2), "of {}", n);
        }
    }

    /// A header says all that counts.
    fn counted(ends: &mut Ends, is_full: bool, (n, start_rows, rows): (u8, u32, u32)) {
        let mut header = Table::in_view_0(Vec::new()).image();
        header[2] = n;
        header[4..8].copy_from_slice(&rows.to_be_bytes());
        header[16..20].copy_from_slice(&start_rows.to_be_bytes());
        ends.count(is_full, &header);
    }

    #[test]
    fn new_stamps_are_counted_by_how_they_end_and_by_their_group() {
        let mut ends = Ends::default();
        for table in [(3, 0, 255), (3, 0, 256), (5, 507, 508), (7, 400, 428)] {
            counted(&mut ends, false, table);
        }
        for table in [(3, 0, 256), (5, 0, 512), (5, 510, 510), (7, 512, 512)] {
            counted(&mut ends, true, table);
        }
        assert_eq!(ends.0, [[1, 1, 1], [1, 1, 0], [0, 1, 1]]);
        let missing = [
            "a new stamp refused with rows left, of 7: 0 times",
            "a new stamp refused as the view begins, of 3: 0 times",
        ];
        assert_eq!(ends.missing(1), missing);
    }
}
