//! Document 01 a second time: bytes in, bytes out.
//!
//! Bytes are parsed into owned structures, computed on with ordinary collections and written out again. Nothing here is
//! clever, and nothing works in place, so that a mistake of the proved calls is unlikely to be made here as well.
//! The modules follow the paper's chapters, and each function quotes the sentence that it renders. Where the paper
//! leaves a point open, the reading is that of docs/DECISIONS.md.
//!
//! - [`group`]: "What the boxes are"
//! - [`stamps`], [`body`]: "Stamps and bodies"
//! - [`row`], [`table`]: "The table image: contents first, bodies after"
//! - [`numbers`]: "Numbers returned"
//! - [`message`], [`answer`], [`reply`]: "Messages to a box"
//! - [`check`], [`merge`], [`count`]: the chapters of these names; of the check, rule B as document 02 mends it
//! - [`day_order`]: the check for messages 1, which document 02 asks for; the merge keeps the one of [`check`]
//! - [`room`]: how many rows a box may add in a view, which document 02 asks for
//! - [`halving`]: the rows that the search for a stamp compares, which document 02 asks for

pub mod answer;
pub mod body;
pub mod bytes;
pub mod check;
pub mod count;
pub mod day_order;
pub mod group;
pub mod halving;
pub mod merge;
pub mod message;
pub mod numbers;
pub mod reply;
pub mod room;
pub mod row;
pub mod stamps;
pub mod table;

pub use answer::respond;
pub use body::Body;
pub use check::check;
pub use count::{decide, Counted, Decision};
pub use day_order::proposal_check;
pub use group::Counts;
pub use merge::merged;
pub use message::Message;
pub use numbers::Number;
pub use reply::{Answered, Reply};
pub use row::{HeldOutcome, HeldPrepare, Outcome, PrepareResult, Row, Rows};
pub use table::{Mode, Table};

/// The two numbers in which one model of box differs from another. The buffer holds the largest image of so many rows.
#[derive(Clone, Copy, Debug, PartialEq, Eq)]
pub struct Model {
    pub rows: usize,
    pub buffer: usize,
}

/// "At most 512 rows." "A table buffer has at least 49,176 bytes."
pub const VALLEY: Model = Model {
    rows: 512,
    buffer: 49_176,
};

/// The fresh table of a box, written at the buffer's start; returns the number.
pub fn fresh(table: &mut [u8], n: u8, box_number: u8) -> u8 {
    table::fresh_for(VALLEY, table, n, box_number).code()
}

/// Whether the bytes begin with an image, coded as at the C boundary: its length from bit 16 on, or the number.
pub fn valid(bytes: &[u8]) -> u64 {
    let refusal = u64::from(Number::BadTable.code());
    Table::parse(bytes).map_or(refusal, |(_, length)| (length as u64) << 16)
}

/// A box's answer to one message: the table changed, the reply written; returns the number.
pub fn answer(table: &mut [u8], message: &[u8], reply: &mut [u8]) -> u8 {
    answer::answer_for(VALLEY, table, message, reply).code()
}

/// The same answer, coded as at the C boundary: the number, and from bit 16 on the rows that the search compared.
pub fn answer_word(table: &mut [u8], message: &[u8], reply: &mut [u8]) -> u64 {
    answer::answered_for(VALLEY, table, message, reply).word()
}

/// The merge for a view of the images laid end to end in a run; returns the number.
pub fn merge(run: &[u8], view: u32, out: &mut [u8]) -> u8 {
    merge::merge_for(VALLEY, run, view, out).code()
}

/// The coordinator's count of replies of 15 bytes each, coded as at the C boundary.
pub fn count(n: u8, replies: &[u8]) -> u64 {
    count::coded(count::count_bytes(n, replies))
}
