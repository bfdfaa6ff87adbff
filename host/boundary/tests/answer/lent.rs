//! The buffers of a call, three times: for each of the library's two calls that answer, and for the second program.
//! What they leave is compared.

use crate::shares::Shares;
use samples::{Dice, TABLE_BYTES};

/// Bytes that are not lent, before and behind what is.
const BEFORE: usize = 64;
const BEHIND: usize = 64;
/// The longest of the buffers that are lent.
const LONGEST_TABLE: usize = TABLE_BYTES + 10_007;
const LONGEST_REPLY: usize = 100;

/// "A table buffer has at least 49,176 bytes", a reply buffer 24.
pub const TABLES_LONG_ENOUGH: [usize; 3] = [TABLE_BYTES, TABLE_BYTES + 1, LONGEST_TABLE];
pub const TABLES_TOO_SHORT: [usize; 4] = [0, 1, 24, TABLE_BYTES - 1];
pub const REPLIES_LONG_ENOUGH: [usize; 3] = [24, 25, LONGEST_REPLY];
pub const REPLIES_TOO_SHORT: [usize; 3] = [0, 1, 23];

#[derive(Clone, PartialEq)]
struct Buffers {
    table: Vec<u8>,
    reply: Vec<u8>,
}

impl Buffers {
    /// What a call answers in lent parts of these lengths: a number, or a word.
    fn answered<A>(
        &mut self,
        begin: usize,
        (table, reply): (usize, usize),
        message: &[u8],
        answer: fn(&mut [u8], &[u8], &mut [u8]) -> A,
    ) -> A {
        let table = &mut self.table[begin..begin + table];
        let reply = &mut self.reply[begin..begin + reply];
        answer(table, message, reply)
    }
}

pub struct Lent {
    pub dice: Dice,
    pub shares: Shares,
    /// Of the call that answers with the rows compared, and of the one that answers with the number alone.
    library: Buffers,
    number_alone: Buffers,
    second: Buffers,
    /// What stands behind an image until somebody writes there.
    dirt: Vec<u8>,
    /// Where the lent parts begin: they may begin at any address.
    begin: usize,
    /// How far the dirt may have been written over.
    used: usize,
}

impl Lent {
    pub fn seeded(seed: u64) -> Lent {
        let mut dice = Dice::seeded(seed);
        let begin = BEFORE + dice.index(64);
        // No zero among the dirt, so that clearing is seen.
        let length = begin + LONGEST_TABLE + BEHIND;
        let dirt: Vec<u8> = (0..length).map(|_| 1 + dice.below(255) as u8).collect();
        let buffers = Buffers {
            table: dirt.clone(),
            reply: vec![0; begin + LONGEST_REPLY + BEHIND],
        };
        Lent {
            library: buffers.clone(),
            number_alone: buffers.clone(),
            second: buffers,
            dirt,
            begin,
            used: 0,
            dice,
            shares: Shares::default(),
        }
    }

    /// Puts bytes at the start of all table buffers, with dirt behind them.
    pub fn hold(&mut self, bytes: &[u8]) {
        let until = self.used.max(bytes.len());
        let old = self.begin + bytes.len()..self.begin + until;
        for buffers in [&mut self.library, &mut self.number_alone, &mut self.second] {
            buffers.table[self.begin..old.start].copy_from_slice(bytes);
            buffers.table[old.clone()].copy_from_slice(&self.dirt[old.clone()]);
        }
        self.used = bytes.len();
    }

    /// What the table buffers hold, from their start on.
    pub fn held(&self) -> &[u8] {
        &self.second.table[self.begin..]
    }

    /// A number of 4 bytes in the header that is held.
    pub fn number_at(&self, at: usize) -> u32 {
        u32::from_be_bytes(self.held()[at..at + 4].try_into().expect("four bytes"))
    }

    /// The image that is held.
    pub fn image(&self) -> &[u8] {
        &self.held()[..self.number_at(20) as usize]
    }

    /// The number that both programs answer a message with, in buffers that are long enough.
    pub fn ask(&mut self, message: &[u8]) -> u8 {
        self.ask_for_word(message) as u8
    }

    /// The same with the rows compared: the number in bits 0 to 7, the rows in bits 16 to 63.
    pub fn ask_for_word(&mut self, message: &[u8]) -> u64 {
        let table = self.dice.one_of(&TABLES_LONG_ENOUGH);
        let reply = self.dice.one_of(&REPLIES_LONG_ENOUGH);
        self.word_with((table, reply), message)
    }

    /// The number that both programs answer a message with, in buffers of these lengths.
    pub fn ask_with(&mut self, lengths: (usize, usize), message: &[u8]) -> u8 {
        self.word_with(lengths, message) as u8
    }

    /// The word that both programs answer a message with. They have to agree on every bit of it and on every byte, lent
    /// or not; and so has the call that answers with the number alone.
    fn word_with(&mut self, lengths: (usize, usize), message: &[u8]) -> u64 {
        let before = self.held()[..240].to_vec();
        let rows_before = self.number_at(4);
        let answers = self.answers(lengths, message);
        let same_bytes = self.library == self.second && self.number_alone == self.library;
        if !same_bytes || !answers.are_same() {
            self.say_what_differs(answers, lengths, &before, message);
        }
        let number = answers.expected as u8;
        if number == 0 {
            self.used = self.used.max(self.number_at(20) as usize);
        }
        let reply = &self.second.reply[self.begin..self.begin + 24];
        self.shares.count(message, number, reply);
        let is_checked = number == 0 && message[0] == 1 && self.number_at(4) > rows_before;
        if is_checked {
            self.shares
                .count_checked(reply, &self.second.table[self.begin..]);
        }
        answers.expected
    }

    /// What a message is answered with, each time in buffers that only that call is lent.
    fn answers(&mut self, lengths: (usize, usize), message: &[u8]) -> Answers {
        let dirt = 1 + self.dice.below(255) as u8;
        // A message may begin at any address too.
        let lead = self.dice.index(8);
        let lent = [&self.dirt[..lead], message].concat();
        let (begin, asked) = (self.begin, &lent[lead..]);
        let [second, library, alone] =
            [&mut self.second, &mut self.library, &mut self.number_alone];
        second.reply.fill(dirt);
        library.reply.fill(dirt);
        alone.reply.fill(dirt);
        let answers = Answers {
            expected: second.answered(begin, lengths, message, reference::answer_word),
            word: library.answered(begin, lengths, asked, boundary::answer_word),
            number: alone.answered(begin, lengths, asked, boundary::answer),
        };
        assert!(asked == message, "the message is changed");
        answers
    }

    fn say_what_differs(
        &self,
        answers: Answers,
        lengths: (usize, usize),
        before: &[u8],
        asked: &[u8],
    ) -> ! {
        let place = |one: &[u8], other: &[u8]| {
            let differs = one.iter().zip(other).position(|(one, other)| one != other);
            differs.map(|place| place as isize - self.begin as isize)
        };
        let places = |one: &Buffers| {
            let table = place(&one.table, &self.second.table);
            (table, place(&one.reply, &self.second.reply))
        };
        panic!(
            "{:x?}, lengths {:?}; table and reply differ at {:?}, of the number alone at {:?}\n\
             table before {:02x?}\nmessage {:02x?}\nreply {:02x?}\nand not {:02x?}",
            answers,
            lengths,
            places(&self.library),
            places(&self.number_alone),
            before,
            &asked[..asked.len().min(240)],
            &self.library.reply[self.begin..][..32],
            &self.second.reply[self.begin..][..32],
        );
    }
}

/// What one message was answered with: the word by the second program and by the library, and the number by the
/// library's other call.
#[derive(Clone, Copy, Debug)]
struct Answers {
    expected: u64,
    word: u64,
    number: u8,
}

impl Answers {
    fn are_same(&self) -> bool {
        self.word == self.expected && self.number == self.word as u8
    }
}
