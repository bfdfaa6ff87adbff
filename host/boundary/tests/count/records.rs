//! Replies lent as records: laid out here as C does it, with anything in their padding and about them.

use crate::lent::Lent;
use boundary::RECORD_WORDS;
use samples::replies::{self, laid, RECORD_LENGTH};
use samples::Dice;

/// Where the padding of a record is: its bytes that are part of no field.
const PADDING: [u64; RECORD_WORDS] = [0xff00_0000, 0];

/// So many words at most stand before the first record, which so begins at every place of 64 bytes where one may.
const MOST_BEFORE: usize = 7;

/// The fields of a reply of 15 bytes at their places in a record, the least byte of each first: the box at byte 0, the
/// result at 1, the final byte at 2, the view at 4 and the retry stamp at 8.
fn words(reply: &[u8]) -> [u64; RECORD_WORDS] {
    let view = u32::from_be_bytes(reply[1..5].try_into().expect("four bytes"));
    let retry = u64::from_be_bytes(reply[6..14].try_into().expect("eight bytes"));
    let small = [reply[0], reply[5], reply[14], 0];
    [
        u64::from(view) << 32 | u64::from(u32::from_le_bytes(small)),
        retry,
    ]
}

/// Memory for records, used anew for each call: behind its words often stand those of an earlier one.
pub struct Room {
    dice: Dice,
    words: Vec<u64>,
    /// What the words are before a call.
    before: Vec<u64>,
}

impl Room {
    pub fn seeded(seed: u64) -> Room {
        Room {
            dice: Dice::seeded(seed),
            words: Vec::new(),
            before: Vec::new(),
        }
    }

    /// The answer to whole replies that are lent as records with others behind them, and whether no byte changed, lent or
    /// not. Their padding is all 0, all ones, or as chance has it.
    pub fn count(&mut self, n: u8, replies: &[u8], behind: &[u8]) -> (u64, bool) {
        let padding = self.dice.wide();
        let lead = self.dice.index(MOST_BEFORE + 1);
        self.lay(lead, replies, behind, padding);
        self.counted(n, lead, replies.len() / RECORD_LENGTH)
    }

    /// Lays records behind so many words and before one more. Unless all bits of their padding are alike, it is another
    /// in each word.
    fn lay(&mut self, lead: usize, replies: &[u8], behind: &[u8], mut padding: u64) {
        self.words.clear();
        self.words.resize(lead, padding);
        let lent = replies.chunks_exact(RECORD_LENGTH);
        for reply in lent.chain(behind.chunks_exact(RECORD_LENGTH)) {
            let mut record = words(reply);
            for (word, mask) in record.iter_mut().zip(PADDING) {
                padding = padding.rotate_left(11);
                *word |= padding & mask;
            }
            self.words.extend_from_slice(&record);
        }
        self.words.push(padding);
    }

    /// The answer to so many records behind so many words, and whether no byte changed.
    fn counted(&mut self, n: u8, lead: usize, records: usize) -> (u64, bool) {
        self.before.clone_from(&self.words);
        let lent = &self.words[lead..lead + RECORD_WORDS * records];
        let answer = boundary::count_records(n, boundary::records_in(lent));
        (answer, self.words == self.before)
    }
}

/// Every byte of the padding with every value, while the rest of it is 0.
pub fn padding(lent: &mut Lent) {
    for _ in 0..20 {
        let (n, records) = replies::some(&mut lent.dice);
        let replies = laid(&records);
        let answer = lent.ask(n, &replies);
        lent.room.lay(0, &replies, &[], 0);
        for place in 0..8 * RECORD_WORDS * records.len() {
            let (word, bits) = (place / 8, 8 * (place % 8));
            if PADDING[word % RECORD_WORDS] >> bits & 1 == 0 {
                continue;
            }
            let held = lent.room.words[word];
            for byte in 1..=255 {
                lent.room.words[word] = held | byte << bits;
                let found = lent.room.counted(n, 0, records.len());
                assert_eq!(
                    found,
                    (answer, true),
                    "{} at {}: {:?}",
                    byte,
                    place,
                    records
                );
                lent.shares.as_records += 1;
            }
            lent.room.words[word] = held;
        }
    }
}
