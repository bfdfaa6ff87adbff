//! The calls of both programs at once: what the two agree on, or a complaint.

use crate::{same, Checked};
use boundary::{Record, RECORD_WORDS};
use samples::replies::RECORD_LENGTH;
use samples::TABLE_BYTES;

/// What stands behind images and replies until somebody writes there.
const DIRT: u8 = 0xee;

/// What a message came to.
#[derive(Clone, PartialEq, Debug)]
pub struct Answered {
    /// The number, and beside it the rows compared, as the call codes them.
    pub word: u64,
    pub number: u8,
    pub image: Vec<u8>,
    pub reply: Vec<u8>,
}

/// A buffer of that length that begins with an image.
fn buffer(image: &[u8], length: usize) -> Vec<u8> {
    let mut buffer = image.to_vec();
    buffer.resize(length.max(image.len()), DIRT);
    buffer.truncate(length);
    buffer
}

/// Whether bytes begin with an image, and how long that is: the word of the call.
pub fn valid(bytes: &[u8]) -> Checked<u64> {
    let word = boundary::valid_answer(bytes);
    same("valid", word, reference::valid(bytes))?;
    Ok(word)
}

/// The number with which bytes are refused as a table, or 0.
pub fn table_number(bytes: &[u8]) -> Checked<u8> {
    valid(bytes).map(|word| word as u8)
}

/// The answer to a message of a box whose buffer begins with an image.
pub fn answered(image: &[u8], message: &[u8]) -> Checked<Answered> {
    let one = answered_by(image, message, boundary::answer_word);
    let other = answered_by(image, message, reference::answer_word);
    if one.1 != other.1 {
        return Err(format!("the tables differ after {:02x?}", message));
    }
    same("answer", &one.0, &other.0)?;
    Ok(one.0)
}

type Answer = fn(&mut [u8], &[u8], &mut [u8]) -> u64;

/// The answer, and the whole table buffer after it.
fn answered_by(image: &[u8], message: &[u8], answer: Answer) -> (Answered, Vec<u8>) {
    let mut table = buffer(image, TABLE_BYTES);
    let mut reply = vec![DIRT; 24];
    let word = answer(&mut table, message, &mut reply);
    let image = match reference::Table::parse(&table) {
        Some((_, length)) => table[..length].to_vec(),
        None => Vec::new(),
    };
    let answered = Answered {
        word,
        number: word as u8,
        image,
        reply,
    };
    (answered, table)
}

/// The number that a message gets in buffers of these lengths.
pub fn number_in(image: &[u8], message: &[u8], table: usize, reply: usize) -> Checked<u8> {
    let word = |answer: Answer| answer(&mut buffer(image, table), message, &mut vec![0; reply]);
    let found = word(boundary::answer_word);
    same("answer", found, word(reference::answer_word))?;
    Ok(found as u8)
}

/// The number, and the buffer after a fresh call.
pub fn fresh(n: u8, box_number: u8, length: usize) -> Checked<(u8, Vec<u8>)> {
    let (mut one, mut other) = (vec![DIRT; length], vec![DIRT; length]);
    let number = boundary::fresh(&mut one, n, box_number);
    same("fresh", number, reference::fresh(&mut other, n, box_number))?;
    same("fresh table", &one, &other)?;
    Ok((number, one))
}

/// The number, and the output after a merge.
pub fn merged(run: &[u8], view: u32, length: usize) -> Checked<(u8, Vec<u8>)> {
    let (mut one, mut other) = (vec![DIRT; length], vec![DIRT; length]);
    let number = boundary::merge(run, view, &mut one);
    same("merge", number, reference::merge(run, view, &mut other))?;
    same("merged table", &one, &other)?;
    Ok((number, one))
}

/// The word of a count of replies as bytes; if they are whole, it is also the word of their count as records.
pub fn counted(n: u8, replies: &[u8]) -> Checked<u64> {
    let word = boundary::count(n, replies);
    same("count", word, reference::count(n, replies))?;
    if replies.len() % RECORD_LENGTH == 0 {
        let records: Vec<Record> = replies.chunks(RECORD_LENGTH).map(record).collect();
        same("records", boundary::count_records(n, &records), word)?;
    }
    Ok(word)
}

fn record(reply: &[u8]) -> Record {
    Record {
        box_number: reply[0],
        view: u32::from_be_bytes(reply[1..5].try_into().expect("four bytes")),
        result: reply[5],
        retry: u64::from_be_bytes(reply[6..14].try_into().expect("eight bytes")),
        is_final: reply[14],
    }
}

/// The records whose bytes in memory these are.
pub fn records_of(bytes: &[u8]) -> Checked<Vec<Record>> {
    same("bytes of records", bytes.len() % (8 * RECORD_WORDS), 0)?;
    let word = |bytes: &[u8]| u64::from_ne_bytes(bytes.try_into().expect("eight bytes"));
    let words: Vec<u64> = bytes.chunks(8).map(word).collect();
    Ok(boundary::records_in(&words).to_vec())
}
