//! The seven calls, as the library has them or as something has them that is put in its place.

use boundary::Record;

#[derive(Clone, Copy)]
pub struct Calls {
    pub fresh: fn(&mut [u8], u8, u8) -> u8,
    pub valid: fn(&[u8]) -> u64,
    pub answer: fn(&mut [u8], &[u8], &mut [u8]) -> u8,
    /// The same with the rows compared.
    pub answer_word: fn(&mut [u8], &[u8], &mut [u8]) -> u64,
    pub merge: fn(&[u8], u32, &mut [u8]) -> u8,
    pub count: fn(u8, &[u8]) -> u64,
    pub count_records: fn(u8, &[Record]) -> u64,
}

pub const LIBRARY: Calls = Calls {
    fresh: boundary::fresh,
    valid: boundary::valid_answer,
    answer: boundary::answer,
    answer_word: boundary::answer_word,
    merge: boundary::merge,
    count: boundary::count,
    count_records: boundary::count_records,
};
