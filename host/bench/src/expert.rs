//! The public calls in safe Rust, written from documents 01 and 02 for speed alone, by the best algorithms known here: what
//! a programmer would reach who proves nothing and may write as they like. No part of it was taken from the library, and
//! none follows its walks.
//!
//! - An image is judged in one pass, which goes down its rows and its bodies side by side, by whole words.
//! - A check of message 1 goes from the newest row down and ends at the least version read.
//! - A merge goes up all tables once, with a cursor in each, and keeps what it found on the stack. Its checks then go up the
//!   rows once for each turn, and keep for each register what decides: no check looks at another row.
//! - A count is one pass with a bit for each box and two candidates.
//!
//! Modules: [`image`] is validity, [`message`] what a box is told, [`answer`] what it does then, [`proposal`] the check of
//! message 1, [`insert`] a row added; [`merge`], [`gather`] and [`settle`] the merge; [`count`] the coordinator's count.

#![forbid(unsafe_code)]

pub mod answer;
pub mod count;
mod gather;
pub mod image;
mod insert;
pub mod merge;
mod message;
mod proposal;
mod settle;
#[cfg(test)]
mod tests;

/// Numbers returned, as document 01 has them.
mod number {
    pub const SMALL_BUFFER: u8 = 1;
    pub const BAD_TABLE: u8 = 2;
    pub const BAD_MESSAGE: u8 = 3;
    pub const CHANGING: u8 = 4;
    pub const OTHER_BODY: u8 = 5;
    pub const CONTRADICTION: u8 = 6;
    pub const FULL: u8 = 7;
    pub const UNKNOWN: u8 = 8;
    pub const OTHER_VIEW: u8 = 9;
    pub const OLD_VIEW: u8 = 10;
    pub const WRONG_TABLES: u8 = 11;
}

/// Results of a prepare, as they are coded in messages and, tentative, in rows.
mod result {
    pub const OK: u8 = 1;
    pub const ABORT: u8 = 2;
    pub const ABSTAIN: u8 = 3;
    pub const RETRY: u8 = 4;
    /// What is added to make a tentative one final.
    pub const FINAL: u8 = 4;
}

const GREATEST_STAMP: u64 = (1 << 48) - 1;

fn u32_at(bytes: &[u8], at: usize) -> u32 {
    u32::from_be_bytes(bytes[at..at + 4].try_into().expect("four bytes"))
}

fn u64_at(bytes: &[u8], at: usize) -> u64 {
    u64::from_be_bytes(bytes[at..at + 8].try_into().expect("eight bytes"))
}

fn is_stamp(number: u64) -> bool {
    (1..=GREATEST_STAMP).contains(&number)
}

/// f of a group of n boxes.
fn f_of(n: u8) -> Option<u32> {
    match n {
        3 => Some(1),
        5 => Some(2),
        7 => Some(3),
        _ => None,
    }
}
