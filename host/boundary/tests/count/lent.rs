//! The replies of a call, lent at any address and with other bytes about them, and the answers of both programs. The
//! library is asked twice: for the bytes, and for the same replies as records.

use crate::records::Room;
use crate::shares::Shares;
use samples::replies::{laid, Record, RECORD_LENGTH};
use samples::Dice;

/// What stands before the lent bytes.
const BEFORE: [u8; 16] = [0xee; 16];

pub struct Lent {
    pub dice: Dice,
    pub shares: Shares,
    pub room: Room,
    /// Which part of the test this is, for whoever looks for a fault.
    part: u64,
}

impl Lent {
    pub fn seeded(part: u64) -> Lent {
        Lent {
            dice: Dice::seeded(part),
            shares: Shares::default(),
            // Not the dice of the lists: what stands in the padding has nothing to do with them.
            room: Room::seeded(1_000 + part),
            part,
        }
    }

    /// The answer that both programs give for a list of replies.
    pub fn ask_for(&mut self, n: u8, records: &[Record]) -> u64 {
        self.ask(n, &laid(records))
    }

    /// The answer that both programs give for bytes. They end where their memory does, or the first reply stands behind
    /// them once more: whoever reads on finds a box twice.
    pub fn ask(&mut self, n: u8, replies: &[u8]) -> u64 {
        let more = self.dice.one_of(&[0, RECORD_LENGTH]);
        let behind = &replies[..more.min(replies.len())];
        self.ask_before(n, replies, behind)
    }

    /// The answer that both programs give for bytes with others behind them.
    pub fn ask_before(&mut self, n: u8, replies: &[u8], behind: &[u8]) -> u64 {
        let answer = reference::count(n, replies);
        self.assert_counted(n, replies, behind, answer);
        self.shares.count(n, replies, answer);
        answer
    }

    /// That the library gives this answer for bytes with others behind them, and for the same replies as records unless
    /// one is cut short: every bit of it, while no byte changes, lent or not.
    pub fn assert_counted(&mut self, n: u8, replies: &[u8], behind: &[u8], answer: u64) {
        let found = self.count(n, replies, behind);
        if found != (answer, true) {
            self.say_what_differs("bytes", n, replies, found, answer);
        }
        if replies.len() % RECORD_LENGTH == 0 {
            let found = self.room.count(n, replies, behind);
            if found != (answer, true) {
                self.say_what_differs("records", n, replies, found, answer);
            }
            self.shares.as_records += 1;
        }
    }

    /// The answer to bytes with others behind them, and whether no byte changed.
    fn count(&mut self, n: u8, replies: &[u8], behind: &[u8]) -> (u64, bool) {
        let lead = self.dice.index(BEFORE.len());
        let end = lead + replies.len();
        let around = [&BEFORE[..lead], replies, behind].concat();
        let answer = boundary::count(n, &around[lead..end]);
        let unchanged = around[..lead] == BEFORE[..lead]
            && around[lead..end] == *replies
            && around[end..] == *behind;
        (answer, unchanged)
    }

    fn say_what_differs(
        &self,
        lent_as: &str,
        n: u8,
        replies: &[u8],
        (found, unchanged): (u64, bool),
        answer: u64,
    ) -> ! {
        let shown = &replies[..replies.len().min(9 * RECORD_LENGTH)];
        let records: Vec<&[u8]> = shown.chunks(RECORD_LENGTH).collect();
        panic!(
            "part {}, lent as {}: {:#x} and not {:#x}, n {}, {} bytes, {}: {:02x?}",
            self.part,
            lent_as,
            found,
            answer,
            n,
            replies.len(),
            if unchanged {
                "unchanged"
            } else {
                "which changed"
            },
            records
        );
    }
}
