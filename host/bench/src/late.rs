//! A box's answer to a message 1 that comes late, among entries that ran one after the other.

use crate::answer::{committed, taken_out, Answering};
use crate::merge::accesses;
use crate::{Side, Work};
use samples::{message, Dice, Table};

/// What is answered is a message 1, in tables whose rows have read what was written last.
pub struct ComingLate {
    asked: Answering<1>,
}

impl Work for ComingLate {
    const NAME: &'static str = "answer1-late";
    const SIZES: [usize; 3] = Answering::<1>::SIZES;
    const CALL: Option<&'static str> = Answering::<1>::CALL;
    const SIDES: &'static [Side] = Answering::<1>::SIDES;
    const ABOUT: &'static str = "\
`sprondilu_answer` of the library answers a message 1 that comes late. The input is a table like that of answer1, but
each row has read what was written last before it, of any registers, and the message proposes the row in the middle, as
if all later ones had come before it. They have written what it read, so that it ends in ABORT. Half of the rows move.";

    fn of(rows: usize) -> ComingLate {
        let (table, message) = table_and_message(rows);
        ComingLate {
            asked: Answering::asked(&table, message),
        }
    }

    fn bytes(&self) -> usize {
        self.asked.bytes()
    }

    fn get_ready(&mut self, times: usize) {
        self.asked.get_ready(times);
    }

    fn done_by(&mut self, side: Side, times: usize) {
        self.asked.done_by(side, times);
    }

    fn assert_done(&self, side: Side) {
        self.asked.assert_done(side);
    }
}

/// Entries that ran one after the other, the one in the middle taken out and proposed.
fn table_and_message(rows: usize) -> (Table, Vec<u8>) {
    let mut table = one_after_the_other(rows);
    let late = taken_out(&mut table, rows / 2);
    (table, message::propose_prepare(&late))
}

/// A table of so many rows, all committed and with the longest bodies, each of which has read the newest versions of the
/// registers that it reads.
pub fn one_after_the_other(rows: usize) -> Table {
    let mut dice = Dice::seeded(3);
    let mut table = committed(1, rows);
    let mut newest = [0; 64];
    for row in &mut table.rows {
        let stamp = row.stamp;
        row.reads = accesses(&mut dice, 4, |k| newest[k]);
        row.writes = accesses(&mut dice, 4, |_| stamp);
        for write in &row.writes {
            newest[usize::from(write.register)] = stamp;
        }
    }
    table
}

#[cfg(test)]
mod tests {
    use super::ComingLate;
    use crate::Work;
    use reference::{check, proposal_check, Message, PrepareResult, Rows, Table};

    /// The entry would have been OK when it was due, and by the check of document 01 it still is.
    #[test]
    fn the_entry_is_refused_for_later_ones_alone() {
        for size in ComingLate::SIZES {
            let asked = ComingLate::of(size).asked;
            let table = Table::parse(&asked.before).expect("a table").0;
            let (stamp, body) = match Message::parse(&asked.message) {
                Some(Message::ProposePrepare { stamp, body }) => (stamp, body),
                other => panic!("no message 1: {:?}", other),
            };
            let earlier = table.rows.range(..stamp);
            let earlier: Rows = earlier.map(|(s, row)| (*s, row.clone())).collect();
            assert_eq!(earlier.len(), size / 2);
            assert_eq!(table.rows.len(), size - 1);
            assert_eq!(proposal_check(&earlier, stamp, &body), PrepareResult::Ok);
            assert_eq!(check(&table.rows, stamp, &body), PrepareResult::Ok);
            assert_eq!(asked.reply[3], 2);
        }
    }
}
