//! The merge of rows that nothing stands in the way of: whatever was read is older than all rows, and no check ends before
//! it has looked at each of them.

use crate::merge::{accesses_among, stamp_and_count, tentative, Merging};
use crate::{Side, Work};
use samples::{Dice, Row};

/// What is merged is laid out as for the other merges. Only what the rows read and write is different.
pub struct ReadingOldest<const SAME: bool, const BOXES: u8> {
    merging: Merging<SAME, BOXES>,
}

impl<const SAME: bool, const BOXES: u8> Work for ReadingOldest<SAME, BOXES> {
    const NAME: &'static str = match (SAME, BOXES) {
        (true, 3) => "merge-worst-same-3",
        _ => "merge-worst-apart-7",
    };
    const CALL: Option<&'static str> = Merging::<SAME, BOXES>::CALL;
    const SIDES: &'static [Side] = Merging::<SAME, BOXES>::SIDES;
    const ABOUT: &'static str = match (SAME, BOXES) {
        (true, 3) => {
            "\
The input is laid out like that of merge-same-3, with as many reads and writes in each row, but all reads are of
version 0, which is older than any row. The rows read registers 32 to 63 and write registers 0 to 31. So all checks
find OK, none of them ends early, and no row can be left out because of its age."
        }
        _ => {
            "\
The same rows as for merge-worst-same-3 are dealt out like those of merge-apart-7, so that each of them is open."
        }
    };

    fn of(rows: usize) -> ReadingOldest<SAME, BOXES> {
        ReadingOldest {
            merging: Merging::holding(&never_overwritten(&mut Dice::seeded(1), rows)),
        }
    }

    fn times_a_round(rows: usize) -> usize {
        Merging::<SAME, BOXES>::times_a_round(rows)
    }

    fn bytes(&self) -> usize {
        self.merging.bytes()
    }

    fn get_ready(&mut self, times: usize) {
        self.merging.get_ready(times);
    }

    fn done_by(&mut self, side: Side, times: usize) {
        self.merging.done_by(side, times);
    }

    fn assert_done(&self, side: Side) {
        self.merging.assert_done(side);
    }
}

/// Rows that read, when nothing was written yet, what none of them writes.
fn never_overwritten(dice: &mut Dice, rows: usize) -> Vec<Row> {
    let row = |place: u64| {
        let (stamp, count) = stamp_and_count(place);
        let reads = accesses_among(32..64, dice, count, |_| 0);
        let writes = accesses_among(0..32, dice, count, |_| stamp);
        tentative(stamp, reads, writes)
    };
    (0..rows as u64).map(row).collect()
}

#[cfg(test)]
mod tests {
    use super::ReadingOldest;
    use crate::merge::tests::settled;
    use crate::Work;

    #[test]
    fn all_checks_that_are_measured_find_ok() {
        for rows in ReadingOldest::<true, 3>::SIZES {
            for merged in [
                ReadingOldest::<true, 3>::of(rows).merging.merged,
                ReadingOldest::<false, 7>::of(rows).merging.merged,
            ] {
                assert_eq!(settled(&merged, rows, 5), rows);
            }
        }
    }
}
