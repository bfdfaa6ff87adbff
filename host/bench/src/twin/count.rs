//! The coordinator's count as the proved library makes it: the replies read into at most seven small records, then each
//! question by a walk over these.

use super::valid::{is_stamp, retry_is_valid};
use super::{u32_at, u64_at};

const RECORD_LENGTH: usize = 15;
/// As many as the largest group has boxes.
const MOST_REPLIES: usize = 7;

const OK: u8 = 1;
const ABORT: u8 = 2;
const ABSTAIN: u8 = 3;
const RETRY: u8 = 4;

const WAIT: u64 = 0;
const BAD_MESSAGE: u64 = 3;
const CONTRADICTION: u64 = 6;

/// Where the answer has its parts.
const FAST: u64 = 1 << 8;
const SLOW: u64 = 2 << 8;
const RESULT_AT: u32 = 10;
const STAMP_AT: u32 = 16;

/// One reply.
#[derive(Clone, Copy, Default)]
struct Heard {
    box_number: u8,
    view: u32,
    code: u8,
    retry: u64,
    is_final: u8,
}

impl Heard {
    fn read(record: &[u8]) -> Heard {
        Heard {
            box_number: record[0],
            view: u32_at(record, 1),
            code: record[5],
            retry: u64_at(record, 6),
            is_final: record[14],
        }
    }

    fn is_valid(&self, n: u8) -> bool {
        self.box_number < n
            && matches!(self.code, OK..=RETRY)
            && retry_is_valid(self.code, self.retry)
            && self.is_final <= 1
    }

    fn agrees(&self, other: &Heard) -> bool {
        self.code == other.code && self.retry == other.retry
    }

    fn coded(&self, kind: u64) -> u64 {
        coded(kind, self.code, self.retry)
    }
}

fn coded(kind: u64, code: u8, retry: u64) -> u64 {
    kind | u64::from(code) << RESULT_AT | retry << STAMP_AT
}

/// f+1, and the fast count: three f halves, rounded up, plus one.
fn quorum_and_fast(n: u8) -> Option<(usize, usize)> {
    match n {
        3 => Some((2, 3)),
        5 => Some((3, 4)),
        7 => Some((4, 6)),
        _ => None,
    }
}

/// The answer as the library codes it.
pub fn count(n: u8, replies: &[u8]) -> u64 {
    let (quorum, fast) = match quorum_and_fast(n) {
        Some(counts) => counts,
        None => return BAD_MESSAGE,
    };
    // No group has more than seven boxes: of more replies one is outside or there twice, and none has to be read.
    if replies.len() > MOST_REPLIES * RECORD_LENGTH || replies.len() % RECORD_LENGTH != 0 {
        return BAD_MESSAGE;
    }
    let mut records = [Heard::default(); MOST_REPLIES];
    let heard = &mut records[..replies.len() / RECORD_LENGTH];
    for (record, bytes) in heard.iter_mut().zip(replies.chunks_exact(RECORD_LENGTH)) {
        *record = Heard::read(bytes);
    }
    if are_bad(heard, n) {
        return BAD_MESSAGE;
    }
    let fast = fast_result(heard, fast);
    if contradicts(heard, fast) {
        return CONTRADICTION;
    }
    match fast {
        Some(result) => result.coded(FAST),
        None if heard.len() < quorum => WAIT,
        None => slow(heard, quorum),
    }
}

fn are_bad(heard: &[Heard], n: u8) -> bool {
    (0..heard.len()).any(|place| {
        let reply = &heard[place];
        let twice = |other: &Heard| other.box_number == reply.box_number;
        !reply.is_valid(n) || reply.view != heard[0].view || heard[..place].iter().any(twice)
    })
}

/// The first reply whose result the fast count of replies have.
fn fast_result(heard: &[Heard], fast: usize) -> Option<Heard> {
    let agreeing = |reply: &Heard| heard.iter().filter(|other| other.agrees(reply)).count();
    heard.iter().find(|reply| agreeing(reply) >= fast).copied()
}

fn first_final(heard: &[Heard]) -> Option<&Heard> {
    heard.iter().find(|reply| reply.is_final == 1)
}

fn contradicts(heard: &[Heard], fast: Option<Heard>) -> bool {
    let first = match first_final(heard) {
        Some(first) => first,
        None => return false,
    };
    let mut finals = heard.iter().filter(|reply| reply.is_final == 1);
    finals.any(|reply| !reply.agrees(first)) || fast.map_or(false, |fast| !fast.agrees(first))
}

fn slow(heard: &[Heard], quorum: usize) -> u64 {
    if let Some(result) = first_final(heard) {
        return result.coded(SLOW);
    }
    let with = |code: u8| heard.iter().filter(|reply| reply.code == code).count();
    if with(ABORT) > 0 {
        return coded(SLOW, ABORT, 0);
    }
    if with(OK) >= quorum {
        return coded(SLOW, OK, 0);
    }
    // Only RETRY has a stamp.
    let greatest = heard.iter().map(|reply| reply.retry).fold(0, u64::max);
    if is_stamp(greatest) {
        return coded(SLOW, RETRY, greatest);
    }
    coded(SLOW, ABSTAIN, 0)
}

#[cfg(test)]
mod tests {
    use super::{count, BAD_MESSAGE};
    use samples::{replies, Dice, Record};

    /// Of boxes that rise, or of the group's over and over: up to seven replies are found bad by the walk, more by their
    /// length.
    #[test]
    fn more_replies_than_boxes_are_bad() {
        for n in [3, 5, 7] {
            for (length, boxes) in (n + 1..=15).flat_map(|length| [(length, length), (length, n)]) {
                let record = |place: u8| Record {
                    box_number: place % boxes,
                    view: 9,
                    result: (1, 0),
                    is_final: 0,
                };
                let records: Vec<Record> = (0..length).map(record).collect();
                assert_eq!(count(n, &replies::laid(&records)), BAD_MESSAGE);
            }
        }
    }

    #[test]
    fn the_twin_counts_as_the_second_program() {
        let mut dice = Dice::seeded(1);
        let mut met = [0; 7];
        for turn in 0..200_000 {
            let (n, records) = replies::some(&mut dice);
            let mut bytes = replies::laid(&records);
            if turn % 4 == 0 && !bytes.is_empty() {
                let place = dice.index(bytes.len());
                match dice.index(4) {
                    0 => bytes.truncate(place),
                    1 => bytes.extend_from_within(..place),
                    _ => bytes[place] ^= dice.one_of(&[1, 2, 4, 128]),
                }
            }
            let n = dice.one_of(&[n, n, n, n, n, n, n, n, 4, 9]);
            let answer = reference::count(n, &bytes);
            assert_eq!(count(n, &bytes), answer, "n {}: {:02x?}", n, bytes);
            met[(answer & 0xff) as usize] += 1;
        }
        for number in [0, 3, 6] {
            assert!(met[number] > 1_000, "number {}: {:?}", number, met);
        }
    }
}
