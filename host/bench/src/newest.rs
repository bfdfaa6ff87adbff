//! A box's answer to a message 1 as boxes mostly get them: the entry has read the newest versions, and comes in its turn.

use crate::answer::{taken_out, Answering};
use crate::late::one_after_the_other;
use crate::{Side, Work};
use samples::{message, Table};

/// What is answered is a message 1, in tables of entries that ran one after the other, and its entry ran last.
pub struct ReadingNewest {
    asked: Answering<1>,
}

impl Work for ReadingNewest {
    const NAME: &'static str = "answer1-newest";
    const SIZES: [usize; 3] = Answering::<1>::SIZES;
    const CALL: Option<&'static str> = Answering::<1>::CALL;
    const SIDES: &'static [Side] = Answering::<1>::SIDES;
    const ABOUT: &'static str = "\
`sprondilu_answer` of the library answers a message 1 that ends in OK, as boxes mostly get it. The input is the table
of answer1-late, but the message proposes the last row, so that it comes in its turn. Each row reads 4 and writes 4 of
all 64 registers, and reads the newest versions. The least version that the proposed row read was written 23 rows
before it, 43 with 256 rows and 64 with 511. Of half of the 511 rows it was written at most 30 rows before, and of none
more than 98, but for 29 of the first rows, which read what nobody had written. No row moves.";

    fn of(rows: usize) -> ReadingNewest {
        let (table, message) = table_and_message(rows);
        ReadingNewest {
            asked: Answering::asked(&table, message),
        }
    }

    fn bytes(&self) -> usize {
        self.asked.bytes()
    }

    fn get_ready(&mut self, times: usize) {
        self.asked.get_ready(times);
    }

    fn done_by(&mut self, side: Side, times: usize) {
        self.asked.done_by(side, times);
    }

    fn assert_done(&self, side: Side) {
        self.asked.assert_done(side);
    }
}

/// Entries that ran one after the other, the last one taken out and proposed.
fn table_and_message(rows: usize) -> (Table, Vec<u8>) {
    let mut table = one_after_the_other(rows);
    let last = taken_out(&mut table, rows - 1);
    (table, message::propose_prepare(&last))
}

#[cfg(test)]
pub mod tests {
    use super::ReadingNewest;
    use crate::late::one_after_the_other;
    use crate::Work;
    use reference::{check, proposal_check, Message, PrepareResult, Table};
    use samples::Row;

    /// How many rows before the one at this place the least version was written that it read. None if it read what nobody
    /// had written, or nothing at all.
    pub fn age(rows: &[Row], place: usize) -> Option<usize> {
        let least = rows[place].reads.iter().map(|read| read.number).min()?;
        let writer = rows.iter().position(|row| row.stamp == least)?;
        Some(place - writer)
    }

    /// The ages of those rows of which the least version has one, in order.
    pub fn ages(rows: &[Row]) -> Vec<usize> {
        let mut ages: Vec<usize> = (0..rows.len())
            .filter_map(|place| age(rows, place))
            .collect();
        ages.sort_unstable();
        ages
    }

    #[test]
    fn the_least_versions_are_as_old_as_is_said() {
        let of_proposed = |size| age(&one_after_the_other(size).rows, size - 1);
        let said = [Some(23), Some(43), Some(64)];
        assert_eq!(ReadingNewest::SIZES.map(of_proposed), said);
        let ages = ages(&one_after_the_other(511).rows);
        assert_eq!(511 - ages.len(), 29);
        assert_eq!((ages[ages.len() / 2], ages[ages.len() - 1]), (30, 98));
    }

    /// The entry is OK by either check, and no row has a later stamp.
    #[test]
    fn the_entry_comes_in_its_turn() {
        for size in ReadingNewest::SIZES {
            let asked = ReadingNewest::of(size).asked;
            let table = Table::parse(&asked.before).expect("a table").0;
            let (stamp, body) = match Message::parse(&asked.message) {
                Some(Message::ProposePrepare { stamp, body }) => (stamp, body),
                other => panic!("no message 1: {:?}", other),
            };
            assert_eq!(table.rows.range(..stamp).count(), size - 1);
            assert_eq!(table.rows.len(), size - 1);
            for check in [check, proposal_check] {
                assert_eq!(check(&table.rows, stamp, &body), PrepareResult::Ok);
            }
            assert_eq!(asked.reply[3], 1);
        }
    }
}
