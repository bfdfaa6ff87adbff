//! An image judged in one pass: a row and its body are looked at together, and each number is read as a whole word.

use super::number::BAD_TABLE;
use super::{f_of, is_stamp, u32_at, u64_at, GREATEST_STAMP};

pub const HEADER: usize = 24;
pub const ROW: usize = 24;
pub const ACCESS: usize = 9;
pub const MOST_ROWS: usize = 512;
pub const BUFFER: usize = 49_176;

/// The counts of a row with four reads and four writes, which needs no jump.
const FULL: u16 = 0x0404;

/// A header, and what the rows behind it have in common.
#[derive(Clone, Copy)]
pub struct Header {
    pub box_number: u8,
    pub n: u8,
    pub is_changing: bool,
    pub rows: usize,
    pub view: u32,
    pub promised: u32,
    pub start_rows: usize,
    pub length: usize,
    /// No row has a tentative prepare or an outcome that is only noted.
    pub is_settled: bool,
}

/// The length of the image that the bytes begin with, from bit 16 on, or the number that refuses them.
pub fn valid_answer(bytes: &[u8]) -> u64 {
    judged(bytes).map_or(u64::from(BAD_TABLE), |header| (header.length as u64) << 16)
}

/// The header of the image that the bytes begin with, if they do.
pub fn judged(bytes: &[u8]) -> Option<Header> {
    let mut header = Header::read(bytes.get(..HEADER)?)?;
    let image = bytes.get(HEADER..header.length)?;
    if image.len() < ROW * header.rows {
        return None;
    }
    let (heads, bodies) = image.split_at(ROW * header.rows);
    let codes = codes_of_good_rows(heads, bodies, header.length)?;
    header.is_settled = codes & SETTLED != 0;
    Some(header)
}

impl Header {
    fn read(bytes: &[u8]) -> Option<Header> {
        let header = Header {
            box_number: bytes[1],
            n: bytes[2],
            is_changing: bytes[3] == 1,
            rows: u32_at(bytes, 4) as usize,
            view: u32_at(bytes, 8),
            promised: u32_at(bytes, 12),
            start_rows: u32_at(bytes, 16) as usize,
            length: u32_at(bytes, 20) as usize,
            is_settled: false,
        };
        let good_views = match bytes[3] {
            0 => header.promised == header.view,
            1 => header.promised > header.view,
            _ => false,
        };
        let good_rows = header.start_rows <= header.rows && header.rows <= MOST_ROWS;
        let good_box = f_of(header.n).is_some() && header.box_number < header.n;
        (bytes[0] == 1 && good_views && good_rows && good_box).then_some(header)
    }
}

/// What is known of a prepare byte and an outcome byte, looked up in one step.
const WITHOUT_RETRY_STAMP: u8 = 1;
const WITH_RETRY_STAMP: u8 = 2;
const SETTLED: u8 = 4;
static CODES: [u8; 0x805] = known_codes();

const fn known_codes() -> [u8; 0x805] {
    let mut codes = [0; 0x805];
    let mut code = 1;
    while code < codes.len() {
        let (prepare, outcome) = (code >> 8, code & 0xff);
        if outcome <= 4 {
            let is_retry = prepare == 4 || prepare == 8;
            let is_settled = (prepare == 0 || prepare > 4) && (outcome == 0 || outcome > 2);
            let stamp = if is_retry {
                WITH_RETRY_STAMP
            } else {
                WITHOUT_RETRY_STAMP
            };
            codes[code] = stamp | if is_settled { SETTLED } else { 0 };
        }
        code += 1;
    }
    codes
}

/// What all rows have in common, if each is good and the bodies end where the image does. The header is kept out of it, so
/// that all that the walk needs stands in registers of the processor.
#[inline(never)]
fn codes_of_good_rows(heads: &[u8], mut bodies: &[u8], length: usize) -> Option<u8> {
    let mut last_stamp = 0;
    let mut common = SETTLED;
    for head in heads.chunks_exact(ROW) {
        let head: &[u8; ROW] = head.try_into().expect("a row");
        let stamp = u64_at(head, 0);
        // Body offset, counts, prepare byte and outcome byte stand in one word.
        let word = u64_at(head, 16);
        let known = *CODES.get(usize::from(word as u16))?;
        let is_placed = word >> 32 == (length - bodies.len()) as u64;
        if stamp <= last_stamp || !is_placed || !has_its_retry_stamp(head, known) {
            return None;
        }
        bodies = match (word >> 16) as u16 {
            FULL => behind_writes::<4>(behind_reads::<4>(bodies, stamp)?)?,
            counts => behind_body(bodies, counts.to_be_bytes(), stamp)?,
        };
        common &= known;
        last_stamp = stamp;
    }
    // Stamps rise, so that the last is the greatest, and none is 0.
    (last_stamp <= GREATEST_STAMP && bodies.is_empty()).then_some(common)
}

#[inline(always)]
fn has_its_retry_stamp(head: &[u8; ROW], known: u8) -> bool {
    match u64_at(head, 8) {
        0 => known & WITHOUT_RETRY_STAMP != 0,
        retry => known & WITH_RETRY_STAMP != 0 && retry <= GREATEST_STAMP,
    }
}

/// What follows a good body of these counts. The compiler unrolls the walk of each number of accesses.
#[inline(always)]
fn behind_body(bodies: &[u8], [reads, writes]: [u8; 2], stamp: u64) -> Option<&[u8]> {
    let bodies = match reads {
        0 if writes == 0 => return None,
        0 => bodies,
        1 => behind_reads::<1>(bodies, stamp)?,
        2 => behind_reads::<2>(bodies, stamp)?,
        3 => behind_reads::<3>(bodies, stamp)?,
        4 => behind_reads::<4>(bodies, stamp)?,
        _ => return None,
    };
    match writes {
        0 => Some(bodies),
        1 => behind_writes::<1>(bodies),
        2 => behind_writes::<2>(bodies),
        3 => behind_writes::<3>(bodies),
        4 => behind_writes::<4>(bodies),
        _ => None,
    }
}

#[inline(always)]
fn behind_reads<const READS: usize>(bytes: &[u8], stamp: u64) -> Option<&[u8]> {
    let behind = behind_writes::<READS>(bytes)?;
    for read in 0..READS {
        if u64_at(bytes, ACCESS * read + 1) >= stamp {
            return None;
        }
    }
    Some(behind)
}

/// Registers rise and are below 64, and that is all that is asked of writes.
#[inline(always)]
fn behind_writes<const WRITES: usize>(bytes: &[u8]) -> Option<&[u8]> {
    if bytes.len() < ACCESS * WRITES {
        return None;
    }
    for access in 1..WRITES {
        if bytes[ACCESS * (access - 1)] >= bytes[ACCESS * access] {
            return None;
        }
    }
    if bytes[ACCESS * (WRITES - 1)] >= 64 {
        return None;
    }
    Some(&bytes[ACCESS * WRITES..])
}

/// Whether the bytes are a body of these counts and no more.
pub fn is_body(bytes: &[u8], counts: [u8; 2], stamp: u64) -> bool {
    behind_body(bytes, counts, stamp).map_or(false, <[u8]>::is_empty)
}

/// The accesses of a part of a body, one after the other.
pub struct Accesses<'a>(pub &'a [u8]);

impl<'a> Iterator for Accesses<'a> {
    type Item = &'a [u8; ACCESS];

    #[inline(always)]
    fn next(&mut self) -> Option<&'a [u8; ACCESS]> {
        if self.0.len() < ACCESS {
            return None;
        }
        let (access, rest) = self.0.split_at(ACCESS);
        self.0 = rest;
        access.try_into().ok()
    }
}

/// Whether a result and a retry stamp belong together.
pub fn is_result(code: u8, retry: u64) -> bool {
    match code {
        1..=3 => retry == 0,
        4 => is_stamp(retry),
        _ => false,
    }
}
