//! What the proved library does, a second time in plain safe Rust that reads and writes numbers in parts of the slice. It
//! is what a careful programmer would have written, to measure the library against.

pub mod answer;
mod check;
pub mod count;
pub mod cursors;
mod gather;
pub mod insert;
pub mod merge;
mod message;
mod run;
pub mod search;
pub mod valid;

const HEADER_LENGTH: usize = 24;
const ROW_LENGTH: usize = 24;
const ACCESS_LENGTH: usize = 9;

fn u32_at(bytes: &[u8], at: usize) -> u32 {
    u32::from_be_bytes(bytes[at..at + 4].try_into().expect("four bytes"))
}

fn u64_at(bytes: &[u8], at: usize) -> u64 {
    u64::from_be_bytes(bytes[at..at + 8].try_into().expect("eight bytes"))
}

fn put_u32(bytes: &mut [u8], at: usize, number: u32) {
    bytes[at..at + 4].copy_from_slice(&number.to_be_bytes());
}

fn put_u64(bytes: &mut [u8], at: usize, number: u64) {
    bytes[at..at + 8].copy_from_slice(&number.to_be_bytes());
}
