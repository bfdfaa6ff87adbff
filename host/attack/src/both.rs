//! One call by both programs: the library in the memory of its rooms, the second program in what it is given. What they leave
//! is compared to the byte.

use crate::calls::Calls;
use crate::fenced::{Memory, Room, Touching};
use crate::met::{Call, Met};
use boundary::{Record, RECORD_WORDS};
use reference::merge::tables_of_run;
use reference::{Row, Table, VALLEY};
use samples::replies::RECORD_LENGTH;
use samples::Dice;
use std::fmt::{self, Display, Formatter};

/// The longest input that is lent: more than a whole group's longest images.
pub const LONGEST_INPUT: usize = 600_000;
/// The longest table or output buffer, and the longest reply buffer.
const LONGEST_TABLE: usize = 200_000;
const LONGEST_REPLY: usize = 1_000;
/// So often in a hundred the call that answers with the number alone is asked what the other one was.
const NUMBER_ALONE: u64 = 5;

/// Two answers to one call, or two buffers after it.
#[derive(Clone, Debug, PartialEq, Eq)]
pub struct Difference {
    pub call: Call,
    /// What the library answered, and the second program.
    pub found: u64,
    pub expected: u64,
    /// The buffer and the first place in which they differ.
    pub place: Option<(&'static str, usize)>,
}

impl Display for Difference {
    fn fmt(&self, f: &mut Formatter) -> fmt::Result {
        write!(
            f,
            "{:?}: the library says {:#x} and the second program {:#x}",
            self.call, self.found, self.expected
        )?;
        match self.place {
            Some((buffer, place)) => write!(f, "; the {} differs first at byte {}", buffer, place),
            None => write!(f, "; no byte differs"),
        }
    }
}

/// The first place in which two buffers of one length differ.
fn differs(name: &'static str, library: &[u8], second: &[u8]) -> Option<(&'static str, usize)> {
    if library == second {
        return None;
    }
    let mut pairs = library.iter().zip(second);
    pairs
        .position(|(one, other)| one != other)
        .map(|place| (name, place))
}

/// What is lent to the library for an answer.
struct Lent<'a> {
    table: &'a mut [u8],
    message: &'a [u8],
    reply: &'a mut [u8],
}

impl Lent<'_> {
    /// The buffer and the first place in which it differs from what the second program left.
    fn differs(&self, table: &[u8], reply: &[u8]) -> Option<(&'static str, usize)> {
        let in_table = differs("table", self.table, table);
        in_table.or_else(|| differs("reply", self.reply, reply))
    }
}

pub struct Both {
    calls: Calls,
    pub met: Met,
    input: Room,
    table: Room,
    reply: Room,
    records: Room,
}

impl Both {
    pub fn new(calls: Calls, memory: Memory) -> Both {
        Both {
            calls,
            met: Met::default(),
            input: Room::for_bytes(memory, LONGEST_INPUT),
            table: Room::for_bytes(memory, LONGEST_TABLE),
            reply: Room::for_bytes(memory, LONGEST_REPLY),
            records: Room::for_bytes(memory, LONGEST_INPUT),
        }
    }

    /// Counts what was met, and says what differs if anything does.
    fn judged(
        &mut self,
        call: Call,
        found: u64,
        expected: u64,
        place: Option<(&'static str, usize)>,
    ) -> Result<u64, Difference> {
        self.met.count(call, expected as u8);
        if found == expected && place.is_none() {
            return Ok(expected);
        }
        Err(Difference {
            call,
            found,
            expected,
            place,
        })
    }

    /// The fresh table of a box in the buffer; returns the number.
    pub fn fresh(
        &mut self,
        dice: &mut Dice,
        table: &mut [u8],
        (n, box_number): (u8, u8),
    ) -> Result<u64, Difference> {
        let lent = self.table.lend(table, either(dice));
        let found = (self.calls.fresh)(lent, n, box_number);
        let number = reference::fresh(table, n, box_number);
        let place = differs("table", lent, table);
        self.judged(Call::Fresh, found.into(), number.into(), place)
    }

    /// Whether the bytes begin with an image: the answer as the call codes it.
    pub fn valid(&mut self, dice: &mut Dice, bytes: &[u8]) -> Result<u64, Difference> {
        let lent = self.input.lend_for_reading(bytes, either(dice));
        let found = (self.calls.valid)(lent);
        self.judged(Call::Valid, found, reference::valid(bytes), None)
    }

    /// A box's answer to a message, left in the buffers; returns the number. The library answers in a word, with the
    /// rows compared, and now and then once more with the number alone.
    pub fn answer(
        &mut self,
        dice: &mut Dice,
        table: &mut [u8],
        message: &[u8],
        reply: &mut [u8],
    ) -> Result<u64, Difference> {
        let calls = self.calls;
        let again = dice.in_a_hundred(NUMBER_ALONE);
        let before = again.then(|| (table.to_vec(), reply.to_vec()));
        let rows_before = rows_in(table);
        let lent = self.lend(dice, table, message, reply);
        let found = (calls.answer_word)(lent.table, lent.message, lent.reply);
        let word = reference::answer_word(table, message, reply);
        let place = lent.differs(table, reply);
        self.judged(Call::answering(message), found, word, place)?;
        self.met.count_compared((word >> 16) as usize);
        let number = word & 0xff;
        let is_added = number == 0 && [1, 3].contains(&message[0]) && rows_in(table) != rows_before;
        if is_added && message[0] == 1 {
            self.count_checked(table, reply);
        }
        if is_added || number == 7 {
            self.met.ends.count(number == 7, table);
        }
        if let Some((table_before, reply_before)) = before {
            let lent = self.lend(dice, &table_before, message, &reply_before);
            let found = (calls.answer)(lent.table, lent.message, lent.reply);
            let place = lent.differs(table, reply);
            self.judged(Call::NumberAlone, found.into(), number, place)?;
        }
        Ok(number)
    }

    /// Counts what message 1 was checked to, from the reply and the table with the new row. The other rows are as they
    /// were then.
    fn count_checked(&mut self, table: &[u8], reply: &[u8]) {
        let (table, _) = Table::parse(table).expect("a table");
        let stamps = table.rows.keys().copied();
        let checked = &mut self.met.checked;
        checked.count(stamps, number_of_8(reply, 8), reply[3]);
        // No row has stamp 0, which is given with other results than RETRY.
        let named = table.rows.get(&number_of_8(reply, 16));
        if named.map_or(false, Row::is_prepared) {
            self.met.count_at_prepared(Call::Answer(1));
        }
    }

    /// The buffers of an answer, each at a fence.
    fn lend(&mut self, dice: &mut Dice, table: &[u8], message: &[u8], reply: &[u8]) -> Lent<'_> {
        Lent {
            table: self.table.lend(table, either(dice)),
            message: self.input.lend_for_reading(message, either(dice)),
            reply: self.reply.lend(reply, either(dice)),
        }
    }

    /// The merge of a run for a view, left in the output; returns the number.
    pub fn merge(
        &mut self,
        dice: &mut Dice,
        run: &[u8],
        view: u32,
        out: &mut [u8],
    ) -> Result<u64, Difference> {
        let lent_run = self.input.lend_for_reading(run, either(dice));
        let lent_out = self.table.lend(out, either(dice));
        let found = (self.calls.merge)(lent_run, view, lent_out);
        let number = reference::merge(run, view, out);
        let place = differs("output", lent_out, out);
        if number == 0 && is_checked_to_prepared(run, out) {
            self.met.count_at_prepared(Call::Merge);
        }
        self.judged(Call::Merge, found.into(), number.into(), place)
    }

    /// The count of replies of 15 bytes each, and of the same replies as records if none is cut short; returns the word.
    pub fn count(&mut self, dice: &mut Dice, n: u8, replies: &[u8]) -> Result<u64, Difference> {
        let lent = self.input.lend_for_reading(replies, either(dice));
        let found = (self.calls.count)(n, lent);
        let word = reference::count(n, replies);
        self.judged(Call::Count, found, word, None)?;
        if replies.len() % RECORD_LENGTH != 0 {
            return Ok(word);
        }
        let padding = dice.byte();
        let laid = laid_as_records(replies, padding);
        let lent = self.records.lend_for_reading(&laid, either(dice));
        let found = (self.calls.count_records)(n, records_in(lent));
        self.judged(Call::CountRecords, found, word, None)
    }
}

/// The bytes that say how many rows a table has, if it goes so far.
fn rows_in(table: &[u8]) -> Option<[u8; 4]> {
    table.get(4..8)?.try_into().ok()
}

fn number_of_8(bytes: &[u8], at: usize) -> u64 {
    u64::from_be_bytes(bytes[at..at + 8].try_into().expect("eight bytes"))
}

/// Whether a merge has a RETRY that none of its tables brought, so that it was checked, with the stamp of a row that is
/// prepared in it.
fn is_checked_to_prepared(run: &[u8], merged: &[u8]) -> bool {
    let (merged, _) = Table::parse(merged).expect("a merged table");
    let at_prepared = |row: &Row| {
        let reader = merged.rows.get(&row.retry_stamp());
        reader.map_or(false, Row::is_prepared)
    };
    let mut retries = merged
        .rows
        .iter()
        .filter(|(_, row)| at_prepared(row))
        .peekable();
    if retries.peek().is_none() {
        return false;
    }
    let tables = tables_of_run(VALLEY, run).expect("whole images");
    retries.any(|(stamp, row)| {
        let mut held = tables.iter().filter_map(|table| table.rows.get(stamp));
        held.all(|held| held.retry_stamp() != row.retry_stamp())
    })
}

fn either(dice: &mut Dice) -> Touching {
    dice.one_of(&[Touching::Before, Touching::Behind])
}

/// The replies as C lays out records: box, result, final byte, a byte of padding, view, retry stamp.
fn laid_as_records(replies: &[u8], padding: u8) -> Vec<u8> {
    let mut laid = Vec::with_capacity(replies.len() / RECORD_LENGTH * 8 * RECORD_WORDS);
    for reply in replies.chunks_exact(RECORD_LENGTH) {
        let view = u32::from_be_bytes(reply[1..5].try_into().expect("four bytes"));
        let retry = u64::from_be_bytes(reply[6..14].try_into().expect("eight bytes"));
        laid.extend([reply[0], reply[5], reply[14], padding]);
        laid.extend(view.to_ne_bytes());
        laid.extend(retry.to_ne_bytes());
    }
    laid
}

/// The records that bytes stand for, which begin where a record may.
fn records_in(bytes: &[u8]) -> &[Record] {
    // Any bytes are records, and the middle part is aligned as they are; nothing may be left over.
    let (before, records, behind) = unsafe { bytes.align_to::<Record>() };
    assert!(
        before.is_empty() && behind.is_empty(),
        "records out of line"
    );
    records
}
