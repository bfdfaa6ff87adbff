//! The merge: what all sides make of the tables of f+1 boxes.

use crate::{Side, Work, CURSORS, EXPERT, LIBRARY, SECOND, TWIN, WALK};
use samples::{Access, Dice, Row, Table, TABLE_BYTES};
use std::ops::Range;

const OK: u8 = 1;
const VIEW: u32 = 1;

/// Tables of f+1 boxes of so many that are merged. Either all of them hold the same rows, or each holds its part of them.
pub struct Merging<const SAME: bool, const BOXES: u8> {
    run: Vec<u8>,
    /// The output as the second program writes it, over zeros.
    pub merged: Vec<u8>,
    /// An output for each time.
    outputs: Vec<Vec<u8>>,
}

impl<const SAME: bool, const BOXES: u8> Work for Merging<SAME, BOXES> {
    const NAME: &'static str = name(SAME, BOXES);
    const CALL: Option<&'static str> = Some("sprondilu_merge");
    const SIDES: &'static [Side] = &[LIBRARY, TWIN, SECOND, EXPERT, CURSORS, WALK];
    const ABOUT: &'static str = about(SAME, BOXES);

    fn of(rows: usize) -> Merging<SAME, BOXES> {
        Merging::holding(&serial(&mut Dice::seeded(1), rows))
    }

    /// A merge is some thousand times as long as what else is measured.
    fn times_a_round(rows: usize) -> usize {
        512 / rows
    }

    fn bytes(&self) -> usize {
        self.run.len()
    }

    fn get_ready(&mut self, times: usize) {
        self.outputs.resize_with(times, || vec![0; TABLE_BYTES]);
        self.outputs.iter_mut().for_each(|output| output.fill(0));
    }

    fn done_by(&mut self, side: Side, times: usize) {
        for output in &mut self.outputs[..times] {
            let number = (side.merge)(&self.run, VIEW, output);
            assert_eq!(number, 0, "{} refused the run", side.name);
        }
    }

    fn assert_done(&self, side: Side) {
        for output in &self.outputs {
            assert!(*output == self.merged, "{} left other bytes", side.name);
        }
    }
}

impl<const SAME: bool, const BOXES: u8> Merging<SAME, BOXES> {
    /// The tables of boxes that hold these rows.
    pub fn holding(rows: &[Row]) -> Merging<SAME, BOXES> {
        let tables = usize::from(BOXES / 2 + 1);
        let run: Vec<u8> = (0..tables)
            .flat_map(|place| {
                let step = if SAME { (0, 1) } else { (place, tables) };
                let own = rows.iter().skip(step.0).step_by(step.1).cloned();
                table(place as u8, BOXES, own.collect()).image()
            })
            .collect();
        let mut merged = vec![0; TABLE_BYTES];
        let number = reference::merge(&run, VIEW, &mut merged);
        assert_eq!(number, 0, "the run is refused");
        Merging {
            run,
            merged,
            outputs: Vec::new(),
        }
    }
}

const fn name(same: bool, boxes: u8) -> &'static str {
    match (same, boxes) {
        (true, 3) => "merge-same-3",
        (true, 5) => "merge-same-5",
        (true, _) => "merge-same-7",
        (false, 3) => "merge-apart-3",
        (false, 5) => "merge-apart-5",
        (false, _) => "merge-apart-7",
    }
}

const fn about(same: bool, boxes: u8) -> &'static str {
    match (same, boxes) {
        (true, 3) => {
            "\
`sprondilu_merge` of the library merges f+1 tables with the same stamps in a group of 3 boxes, against the same walks
in safe Rust. The input is one table by the rules, which f+1 boxes of the group hold. Every row is tentative OK and
without an outcome, so that it is agreed and checked. Half of the rows have 4 reads and 4 writes, half one of each.
Nearly all read what was written last, so that nearly all checks find OK. They read and write any of the 64 registers,
and of half of the 512 rows the least version read was written at most 32 rows before. The rows are those of one table,
the bytes those of all. Each side writes its own outputs. The second program parses the tables into some of its own.
Beside it stand, as cursors, a merge in safe Rust that goes up all tables with a cursor in each, once to decide and
once to write, and, as walk, the twin with a search that walks the rows from the top."
        }
        (false, 3) => {
            "\
The same sides merge f+1 tables of a group of 3 boxes whose stamps are disjoint. The same rows are dealt out in turn,
and all are open and checked. The rows are those of all tables together."
        }
        (_, 5) => "The same is done in a group of 5 boxes, of which 3 tables are merged.",
        _ => "The same is done in a group of 7 boxes, of which 4 tables are merged.",
    }
}

fn table(box_number: u8, n: u8, rows: Vec<Row>) -> Table {
    Table {
        box_number,
        n,
        mode: 1,
        view: 0,
        promised: VIEW,
        start_rows: 0,
        rows,
    }
}

/// Rows of transactions that ran one after the other, but for one in sixteen, which read what was long overwritten.
fn serial(dice: &mut Dice, rows: usize) -> Vec<Row> {
    let mut newest = [0; 64];
    let row = |place: u64| {
        let (stamp, count) = stamp_and_count(place);
        let late = place % 16 == 15;
        let reads = accesses(dice, count, |k| if late { 0 } else { newest[k] });
        let writes = accesses(dice, count, |_| stamp);
        for write in &writes {
            newest[usize::from(write.register)] = stamp;
        }
        tentative(stamp, reads, writes)
    };
    (0..rows as u64).map(row).collect()
}

/// The stamp of the row at this place, and how many reads and how many writes it has.
pub fn stamp_and_count(place: u64) -> (u64, usize) {
    let count = if place % 2 == 0 { 4 } else { 1 };
    (65_536 * (place + 1), count)
}

/// A row that is tentative OK and has no outcome.
pub fn tentative(stamp: u64, reads: Vec<Access>, writes: Vec<Access>) -> Row {
    Row {
        stamp,
        retry: 0,
        reads,
        writes,
        prepare: OK,
        outcome: 0,
    }
}

/// Accesses of so many registers, rising, with the number that each register is given.
pub fn accesses(dice: &mut Dice, count: usize, number: impl Fn(usize) -> u64) -> Vec<Access> {
    accesses_among(0..64, dice, count, number)
}

/// The same of some of the registers alone.
pub fn accesses_among(
    registers: Range<u8>,
    dice: &mut Dice,
    count: usize,
    number: impl Fn(usize) -> u64,
) -> Vec<Access> {
    let mut registers: Vec<u8> = registers.collect();
    dice.shuffle(&mut registers);
    registers.truncate(count);
    registers.sort_unstable();
    let access = |register| Access {
        register,
        number: number(usize::from(register)),
    };
    registers.into_iter().map(access).collect()
}

#[cfg(test)]
pub mod tests {
    use super::{serial, Merging};
    use crate::newest::tests::ages;
    use crate::Work;
    use samples::Dice;

    /// How many of the rows of an image have this prepare byte.
    pub fn settled(image: &[u8], rows: usize, prepare: u8) -> usize {
        let rows = image[24..].chunks_exact(24).take(rows);
        rows.filter(|row| row[22] == prepare).count()
    }

    #[test]
    fn the_least_versions_are_as_old_as_is_said() {
        let ages = ages(&serial(&mut Dice::seeded(1), 512));
        assert_eq!((ages[ages.len() / 2], ages[ages.len() - 1]), (32, 176));
    }

    #[test]
    fn nearly_all_checks_that_are_measured_find_ok() {
        for rows in Merging::<true, 3>::SIZES {
            for merged in [
                Merging::<true, 3>::of(rows).merged,
                Merging::<false, 7>::of(rows).merged,
            ] {
                let (ok, abstain) = (settled(&merged, rows, 5), settled(&merged, rows, 7));
                assert_eq!(ok + abstain, rows);
                assert!(8 * ok > 7 * rows, "{} of {} are OK", ok, rows);
                assert!(abstain > 0, "none of {} is ABSTAIN", rows);
            }
        }
    }
}
