//! The proved calls, with buffers as long as they ask for: so number 1 is never given here.

pub use boundary::{Record, RECORD_WORDS};

/// "A table buffer has at least 49,176 bytes."
pub const TABLE_BYTES: usize = 49_176;

/// "Reply, 24 bytes"
pub const REPLY_BYTES: usize = 24;

pub type Reply = [u8; REPLY_BYTES];

/// The fresh image of a box, or the number that refuses it.
pub fn fresh(n: u8, box_number: u8) -> Result<Vec<u8>, u8> {
    let mut buffer = vec![0; TABLE_BYTES];
    done(boundary::fresh(&mut buffer, n, box_number))?;
    Ok(image_in(&buffer).unwrap_or(&[]).to_vec())
}

/// The image that bytes begin with, if they begin with one by the rules.
pub fn image_in(bytes: &[u8]) -> Option<&[u8]> {
    let length = boundary::valid(bytes).ok()?;
    bytes.get(..length)
}

/// A box's answer in its table buffer: the number, and the reply.
pub fn answer(buffer: &mut [u8], message: &[u8]) -> (u8, Reply) {
    let mut reply = [0; REPLY_BYTES];
    let number = boundary::answer(buffer, message, &mut reply);
    (number, reply)
}

/// The same, with how many rows the search for the message's stamp compared. The answer's bits are those of the C header.
pub fn answer_compared(buffer: &mut [u8], message: &[u8]) -> (u8, Reply, u64) {
    let mut reply = [0; REPLY_BYTES];
    let answer = boundary::answer_word(buffer, message, &mut reply);
    ((answer & 0xff) as u8, reply, answer >> 16)
}

/// The image that a merge makes of images laid end to end, or the number that refuses them.
pub fn merge(run: &[u8], view: u32) -> Result<Vec<u8>, u8> {
    let mut buffer = vec![0; TABLE_BYTES];
    done(boundary::merge(run, view, &mut buffer))?;
    Ok(image_in(&buffer).unwrap_or(&[]).to_vec())
}

/// What a count comes to.
#[derive(Clone, Copy, Debug, PartialEq, Eq)]
pub enum Counted {
    Wait,
    Fast { result: u8, retry_stamp: u64 },
    Slow { result: u8, retry_stamp: u64 },
}

/// The coordinator's count of replies, or the number that refuses them. The answer's bits are those of the C header.
pub fn count(n: u8, records: &[Record]) -> Result<Counted, u8> {
    let answer = boundary::count_records(n, records);
    done((answer & 0xff) as u8)?;
    let result = (answer >> 10 & 0x7) as u8;
    let retry_stamp = answer >> 16;
    Ok(match answer >> 8 & 0x3 {
        1 => Counted::Fast {
            result,
            retry_stamp,
        },
        2 => Counted::Slow {
            result,
            retry_stamp,
        },
        _ => Counted::Wait,
    })
}

/// Whether a box takes the bytes for one of the seven messages: a fresh box is asked, for message 6 one of a group as large as
/// the image's. It is asked on a table of its own, and every number but 3 says that the message is by the rules.
pub fn is_message(bytes: &[u8]) -> bool {
    let image = bytes.get(5..).and_then(image_in);
    let n = match (bytes.first(), image) {
        (Some(6), Some(image)) => image[2],
        _ => 3,
    };
    let mut buffer = vec![0; TABLE_BYTES];
    boundary::fresh(&mut buffer, n, 0);
    answer(&mut buffer, bytes).0 != 3
}

fn done(number: u8) -> Result<(), u8> {
    match number {
        0 => Ok(()),
        number => Err(number),
    }
}
