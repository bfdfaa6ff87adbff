//! A box's answer to a message 1 that nothing stands in the way of: the check looks through each row to its end.

use crate::answer::{committed, taken_out, Answering};
use crate::{Side, Work};
use samples::{message, Access, Dice, Row, Table};

/// What is answered is a message 1, in tables that have no register in common with it. Its stamp lies above all that are
/// held, or in their middle.
pub struct Passing<const LAST: bool> {
    asked: Answering<1>,
}

impl<const LAST: bool> Work for Passing<LAST> {
    const NAME: &'static str = if LAST {
        "answer1-last"
    } else {
        "answer1-middle"
    };
    const SIZES: [usize; 3] = Answering::<1>::SIZES;
    const CALL: Option<&'static str> = Answering::<1>::CALL;
    const SIDES: &'static [Side] = Answering::<1>::SIDES;
    const ABOUT: &'static str = if LAST {
        "\
`sprondilu_answer` of the library answers a message 1 that ends in OK. The input is a table like that of answer1, but
the message proposes the last row, it has no register in common with any other row, and all reads are of version 0. So
each write of each row is looked at, and no search ends early. No row moves."
    } else {
        "\
The same is done with the row in the middle proposed, so that half of the rows have a later stamp. Whatever the check
looks for in those, it finds in none. Half of the rows move."
    };

    fn of(rows: usize) -> Passing<LAST> {
        let mut table = apart(rows);
        let place = if LAST { rows - 1 } else { rows / 2 };
        let new = proposed(taken_out(&mut table, place).stamp);
        Passing {
            asked: Answering::asked(&table, message::propose_prepare(&new)),
        }
    }

    fn bytes(&self) -> usize {
        self.asked.bytes()
    }

    fn get_ready(&mut self, times: usize) {
        self.asked.get_ready(times);
    }

    fn done_by(&mut self, side: Side, times: usize) {
        self.asked.done_by(side, times);
    }

    fn assert_done(&self, side: Side) {
        self.asked.assert_done(side);
    }
}

/// The registers of the transaction that is proposed: no row of the tables has one of them.
const READ: [u8; 4] = [7, 23, 39, 55];
pub const WRITTEN: [u8; 4] = [15, 31, 47, 63];

/// What is proposed at a stamp. It read its registers when nothing was written there.
pub fn proposed(stamp: u64) -> Row {
    Row::of(stamp, numbered(&READ, 0), numbered(&WRITTEN, stamp))
}

/// A table of so many rows, all committed and with the longest bodies, whose registers are none of those that are proposed.
/// All reads are of version 0, which is below any stamp.
pub fn apart(rows: usize) -> Table {
    let mut dice = Dice::seeded(2);
    let mut table = committed(1, rows);
    for row in &mut table.rows {
        row.reads = numbered(&others(&mut dice), 0);
        row.writes = numbered(&others(&mut dice), row.stamp);
    }
    table
}

/// Four rising registers that are not proposed.
fn others(dice: &mut Dice) -> Vec<u8> {
    let mut registers: Vec<u8> = (0..64).collect();
    registers.retain(|register| !READ.contains(register) && !WRITTEN.contains(register));
    dice.shuffle(&mut registers);
    registers.truncate(4);
    registers.sort_unstable();
    registers
}

/// Accesses of these registers, all with one number.
pub fn numbered(registers: &[u8], number: u64) -> Vec<Access> {
    let access = |register: &u8| Access {
        register: *register,
        number,
    };
    registers.iter().map(access).collect()
}

#[cfg(test)]
mod tests {
    use super::Passing;
    use crate::answer::Answering;
    use crate::Work;
    use reference::{check, proposal_check, Body, Message, PrepareResult, Row, Table};

    /// The table, and what is proposed.
    fn parsed(asked: &Answering<1>) -> (Table, u64, Body) {
        let table = Table::parse(&asked.before).expect("a table").0;
        match Message::parse(&asked.message) {
            Some(Message::ProposePrepare { stamp, body }) => (table, stamp, body),
            other => panic!("no message 1: {:?}", other),
        }
    }

    /// Of each row every access is looked at: it is committed, and no two accesses have the register in common, so that no
    /// search ends before its end. Versions are below all stamps, so that no search is left out.
    fn assert_looked_through(row: &Row, body: &Body) {
        assert!(row.is_committed());
        assert_eq!((row.body.reads.len(), row.body.writes.len()), (4, 4));
        let versions = row.body.reads.values().chain(body.reads.values());
        assert_eq!(versions.sum::<u64>(), 0);
        for k in body.reads.keys().chain(body.writes.keys()) {
            assert!(!row.body.reads.contains_key(k) && !row.body.writes.contains_key(k));
        }
    }

    /// So many rows have an earlier stamp than what is proposed, and so many a later one.
    fn assert_passes(asked: &Answering<1>, (earlier, later): (usize, usize)) {
        let (table, stamp, body) = parsed(asked);
        assert_eq!((body.reads.len(), body.writes.len()), (4, 4));
        assert_eq!(table.rows.range(..stamp).count(), earlier);
        assert_eq!(table.rows.range(stamp..).count(), later);
        table
            .rows
            .values()
            .for_each(|row| assert_looked_through(row, &body));
        for check in [check, proposal_check] {
            assert_eq!(check(&table.rows, stamp, &body), PrepareResult::Ok);
        }
        assert_eq!(asked.reply[3], 1);
    }

    #[test]
    fn each_row_is_looked_through_to_its_end() {
        for size in Passing::<true>::SIZES {
            assert_passes(&Passing::<true>::of(size).asked, (size - 1, 0));
            let half = size / 2;
            assert_passes(&Passing::<false>::of(size).asked, (half, size - 1 - half));
        }
    }
}
