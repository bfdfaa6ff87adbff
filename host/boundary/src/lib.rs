//! The proved calls, as Rust links them from the static library. Nothing checks these declarations against the library's
//! source, so there is one for each call of `include/sprondilu.h`; beside them only the header's struct, and words seen as
//! such structs.

/// The calls as they are declared in C. They are called by the functions below, and by whoever needs their addresses.
pub mod library {
    use super::Record;

    extern "C" {
        pub fn sprondilu_fresh(table: *mut u8, table_len: usize, n: u8, box_number: u8) -> u8;
        pub fn sprondilu_valid(bytes: *const u8, bytes_len: usize) -> u64;
        pub fn sprondilu_answer(
            table: *mut u8,
            table_len: usize,
            message: *const u8,
            message_len: usize,
            reply: *mut u8,
            reply_len: usize,
        ) -> u8;
        pub fn sprondilu_answer_compared(
            table: *mut u8,
            table_len: usize,
            message: *const u8,
            message_len: usize,
            reply: *mut u8,
            reply_len: usize,
        ) -> u64;
        pub fn sprondilu_merge(
            run: *const u8,
            run_len: usize,
            view: u32,
            out: *mut u8,
            out_len: usize,
        ) -> u8;
        pub fn sprondilu_count(n: u8, replies: *const u8, replies_len: usize) -> u64;
        pub fn sprondilu_count_records(n: u8, records: *const Record, records_len: usize) -> u64;
    }
}

/// The fresh table of a box, written at the buffer's start; returns the number.
pub fn fresh(table: &mut [u8], n: u8, box_number: u8) -> u8 {
    // A slice is valid for its length, and nobody else has this one.
    unsafe { library::sprondilu_fresh(table.as_mut_ptr(), table.len(), n, box_number) }
}

/// Whether the bytes begin with an image: the answer as the call codes it.
pub fn valid_answer(bytes: &[u8]) -> u64 {
    // A slice is valid for its length, and the call only reads.
    unsafe { library::sprondilu_valid(bytes.as_ptr(), bytes.len()) }
}

/// The length of the image that the bytes begin with, or the number that refuses them.
pub fn valid(bytes: &[u8]) -> Result<usize, u8> {
    let answer = valid_answer(bytes);
    match (answer & 0xff) as u8 {
        0 => Ok((answer >> 16) as usize),
        number => Err(number),
    }
}

/// A box's answer to one message: the table changed, the reply written; returns the number.
pub fn answer(table: &mut [u8], message: &[u8], reply: &mut [u8]) -> u8 {
    // Slices are valid for their lengths; nobody else has those that are written, so none overlap.
    unsafe {
        library::sprondilu_answer(
            table.as_mut_ptr(),
            table.len(),
            message.as_ptr(),
            message.len(),
            reply.as_mut_ptr(),
            reply.len(),
        )
    }
}

/// The same answer with the rows that the search for the message's stamp compared: the answer as the call codes it.
pub fn answer_word(table: &mut [u8], message: &[u8], reply: &mut [u8]) -> u64 {
    // Slices are valid for their lengths; nobody else has those that are written, so none overlap.
    unsafe {
        library::sprondilu_answer_compared(
            table.as_mut_ptr(),
            table.len(),
            message.as_ptr(),
            message.len(),
            reply.as_mut_ptr(),
            reply.len(),
        )
    }
}

/// The merge for a view of the images laid end to end in a run, written at the output's start; returns the number.
pub fn merge(run: &[u8], view: u32, out: &mut [u8]) -> u8 {
    // Slices are valid for their lengths; nobody else has the one that is written, so the two do not overlap.
    unsafe { library::sprondilu_merge(run.as_ptr(), run.len(), view, out.as_mut_ptr(), out.len()) }
}

/// The coordinator's count of replies of 15 bytes each, laid end to end: the answer as the call codes it.
pub fn count(n: u8, replies: &[u8]) -> u64 {
    // A slice is valid for its length, and the call only reads.
    unsafe { library::sprondilu_count(n, replies.as_ptr(), replies.len()) }
}

/// One reply as C lays out its `sprondilu_record`, with one byte of padding, behind the final byte.
#[repr(C)]
#[derive(Clone, Copy, Debug, PartialEq, Eq)]
pub struct Record {
    pub box_number: u8,
    pub result: u8,
    pub is_final: u8,
    pub view: u32,
    pub retry: u64,
}

/// How many words of 8 bytes a record takes.
pub const RECORD_WORDS: usize = 2;

// Records are seen in words below.
const _: () = assert!(std::mem::size_of::<Record>() == 8 * RECORD_WORDS);
const _: () = assert!(std::mem::align_of::<Record>() == std::mem::align_of::<u64>());

/// The records that whole words stand for, two each, so that their padding can be set and looked at too.
pub fn records_in(words: &[u64]) -> &[Record] {
    // A record is as long as its words and aligned as they are, and any bytes are one.
    unsafe { std::slice::from_raw_parts(words.as_ptr().cast(), words.len() / RECORD_WORDS) }
}

/// The coordinator's count of replies lent as records: the answer as the call codes it.
pub fn count_records(n: u8, records: &[Record]) -> u64 {
    // A slice is valid for its length, which counts records, and the call only reads.
    unsafe { library::sprondilu_count_records(n, records.as_ptr(), records.len()) }
}
