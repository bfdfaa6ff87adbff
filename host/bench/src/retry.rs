//! A box's answer to a message 1 that ends in RETRY: the check finds later readers of what is written, row after row.

use crate::answer::{taken_out, Answering};
use crate::passing::{apart, numbered, proposed, WRITTEN};
use crate::{Side, Work};
use samples::{message, Table};

/// What is answered is a message 1, in tables that hold nothing but later readers.
pub struct Retrying {
    asked: Answering<1>,
}

impl Work for Retrying {
    const NAME: &'static str = "answer1-retry";
    const SIZES: [usize; 3] = Answering::<1>::SIZES;
    const CALL: Option<&'static str> = Answering::<1>::CALL;
    const SIDES: &'static [Side] = Answering::<1>::SIDES;
    const ABOUT: &'static str = "\
`sprondilu_answer` of the library answers a message 1 that ends in RETRY. The input is a table like that of
answer1-last, but the message proposes the first row, and every other row has read the four registers that it writes,
when nothing was written there. So each row is a committed reader with a later stamp, and the check finds that in its
first read. All rows move.";

    fn of(rows: usize) -> Retrying {
        let (table, message) = table_and_message(rows);
        Retrying {
            asked: Answering::asked(&table, message),
        }
    }

    fn bytes(&self) -> usize {
        self.asked.bytes()
    }

    fn get_ready(&mut self, times: usize) {
        self.asked.get_ready(times);
    }

    fn done_by(&mut self, side: Side, times: usize) {
        self.asked.done_by(side, times);
    }

    fn assert_done(&self, side: Side) {
        self.asked.assert_done(side);
    }
}

/// The first row taken out of a table and proposed, and what it writes read by all the others. What it reads is written by
/// none of them, so that no check ends in ABORT.
fn table_and_message(rows: usize) -> (Table, Vec<u8>) {
    let mut table = apart(rows);
    let first = proposed(taken_out(&mut table, 0).stamp);
    for row in &mut table.rows {
        row.reads = numbered(&WRITTEN, 0);
    }
    (table, message::propose_prepare(&first))
}

#[cfg(test)]
mod tests {
    use super::Retrying;
    use crate::Work;
    use reference::{check, proposal_check, Message, PrepareResult, Rows, Table};

    /// Any row alone would be answered with its own stamp, and all of them are with that of the last, by either check.
    #[test]
    fn each_row_is_a_later_reader() {
        for size in Retrying::SIZES {
            let asked = Retrying::of(size).asked;
            let table = Table::parse(&asked.before).expect("a table").0;
            let (stamp, body) = match Message::parse(&asked.message) {
                Some(Message::ProposePrepare { stamp, body }) => (stamp, body),
                other => panic!("no message 1: {:?}", other),
            };
            for (reader, row) in &table.rows {
                let alone = Rows::from([(*reader, row.clone())]);
                let expected = PrepareResult::Retry(*reader);
                for check in [check, proposal_check] {
                    assert_eq!(check(&alone, stamp, &body), expected);
                }
            }
            let greatest = table.rows.keys().max().expect("a row");
            assert_eq!(table.rows.len() + 1, size);
            assert_eq!(asked.reply[3], 4);
            assert_eq!(asked.reply[16..], greatest.to_be_bytes());
        }
    }
}
