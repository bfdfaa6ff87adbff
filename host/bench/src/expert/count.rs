//! The coordinator's count. One pass without a jump gathers what must not be in bits, which are looked at once, and sees
//! whether all boxes gave the same code. Mostly the answer is known then. If it is not, a second pass counts.

use super::number::{BAD_MESSAGE, CONTRADICTION};
use super::result::{ABORT, ABSTAIN, OK, RETRY};
use super::{f_of, u64_at};
use boundary::Record;

const REPLY: usize = 15;

/// No group has more boxes.
const MOST: usize = 7;

/// One reply in two words: box 1, view 4, code 1 and the upper 2 bytes of the retry stamp; the lower 7 bytes of the retry
/// stamp and final 1. Its upper 2 bytes are 0, so that nothing is lost if the second of them stands in both words.
#[derive(Clone, Copy)]
struct Words {
    front: u64,
    back: u64,
}

impl Words {
    /// The code above 48 bits of retry stamp: equal results are equal numbers, and none is 0.
    #[inline(always)]
    fn result(self) -> u64 {
        (self.front >> 16 & 0xff) << 48 | self.back >> 8
    }

    #[inline(always)]
    fn is_final(self) -> bool {
        self.back & 1 == 1
    }
}

/// The count of replies of 15 bytes each.
pub fn count(n: u8, replies: &[u8]) -> u64 {
    if replies.len() % REPLY != 0 {
        return u64::from(BAD_MESSAGE);
    }
    let words = |reply: &[u8]| {
        let reply: &[u8; REPLY] = reply.try_into().expect("a reply");
        Words {
            front: u64_at(reply, 0),
            back: u64_at(reply, 7),
        }
    };
    counted(n, replies.chunks_exact(REPLY).map(words))
}

/// The count of replies lent as records.
pub fn count_records(n: u8, records: &[Record]) -> u64 {
    let words = |record: &Record| {
        let view_and_code = u64::from(record.view) << 24 | u64::from(record.result) << 16;
        Words {
            front: u64::from(record.box_number) << 56 | view_and_code | record.retry >> 48,
            back: record.retry << 8 | u64::from(record.is_final),
        }
    };
    counted(n, records.iter().map(words))
}

/// Replies are refused, or counted in a group of n. More than the most boxes are refused for a box twice or outside.
#[inline(always)]
fn counted(n: u8, replies: impl ExactSizeIterator<Item = Words> + Clone) -> u64 {
    let (f, heard) = match (f_of(n), replies.len()) {
        (Some(_), 0) => return 0,
        (Some(f), heard) if heard <= MOST => (f as usize, heard),
        _ => return u64::from(BAD_MESSAGE),
    };
    let mut all = Together::default();
    replies.clone().for_each(|reply| all.take(reply));
    if all.is_bad(n) {
        return u64::from(BAD_MESSAGE);
    }
    let code = all.one_code();
    if (OK..RETRY).contains(&code) && all.backs >> 8 == 0 {
        of_one_result(f, heard, result(code, 0))
    } else if code == RETRY && all.has_all_stamps() && all.backs & 1 == 0 && differ(&replies) {
        // At most one reply may be missing from a fast count, so that two of any three have its result.
        slow_or_wait(f, heard, result(RETRY, all.greatest >> 8))
    } else {
        of_many_results(f, replies)
    }
}

/// What the words of all replies have in common.
struct Together {
    any_front: u64,
    every_front: u64,
    backs: u64,
    /// How often each box was heard, in 4 bits.
    boxes: u64,
    /// The uppermost bit is set if a retry stamp is 0.
    missing_stamps: u64,
    greatest: u64,
}

impl Default for Together {
    fn default() -> Together {
        Together {
            any_front: 0,
            every_front: u64::MAX,
            backs: 0,
            boxes: 0,
            missing_stamps: 0,
            greatest: 0,
        }
    }
}

/// A box and a code are below 8, and the upper bytes of a retry stamp are 0.
const NEVER: u64 = 0xf8 << 56 | 0xf8 << 16 | 0xffff;
const OF_VIEW: u64 = 0xffff_ffff << 24;

impl Together {
    #[inline(always)]
    fn take(&mut self, Words { front, back }: Words) {
        self.any_front |= front;
        self.every_front &= front;
        self.backs |= back;
        let place = 4 * (front >> 56) as u32;
        self.boxes = self.boxes.wrapping_add(1u64.wrapping_shl(place));
        self.missing_stamps |= back.wrapping_sub(0x100);
        self.greatest = self.greatest.max(back);
    }

    /// Unless results and retry stamps do not belong together, which is looked at elsewhere, this is all that can be bad:
    /// different views, a box outside or twice, a final byte that is neither 0 nor 1, or a field that is too great.
    #[inline(always)]
    fn is_bad(&self, n: u8) -> bool {
        let once_each = 0x111_1111 >> (4 * (MOST as u32 - u32::from(n)));
        let views = (self.any_front ^ self.every_front) & OF_VIEW;
        let others = self.any_front & NEVER | self.backs & 0xfe;
        views | others | self.boxes & !once_each != 0
    }

    /// The code, if all replies have the same.
    #[inline(always)]
    fn one_code(&self) -> u8 {
        let [any, every] = [self.any_front, self.every_front].map(|front| (front >> 16) as u8);
        if any == every {
            any
        } else {
            0
        }
    }

    #[inline(always)]
    fn has_all_stamps(&self) -> bool {
        self.missing_stamps >> 63 == 0
    }
}

/// Whether the first three replies have a retry stamp each of their own.
#[inline(always)]
fn differ(replies: &(impl Iterator<Item = Words> + Clone)) -> bool {
    let mut few = replies.clone().map(|reply| reply.back);
    match (few.next(), few.next(), few.next()) {
        (Some(first), Some(second), Some(third)) => {
            first != second && first != third && second != third
        }
        _ => false,
    }
}

/// "three f halves, rounded up, plus one"
#[inline(always)]
fn fast_count(f: usize) -> usize {
    (3 * f + 1) / 2 + 1
}

/// Whatever rule applies, the answer can have no other result.
#[inline(always)]
fn of_one_result(f: usize, heard: usize, result: u64) -> u64 {
    if heard >= fast_count(f) {
        return coded(1, result);
    }
    slow_or_wait(f, heard, result)
}

#[inline(always)]
fn slow_or_wait(f: usize, heard: usize, result: u64) -> u64 {
    if heard > f {
        coded(2, result)
    } else {
        0
    }
}

/// What is seen in replies of several codes or retry stamps. A fast count is of the first result, or of the first other one.
#[derive(Default)]
struct Seen {
    heard: usize,
    first: u64,
    like_first: usize,
    other: u64,
    like_other: usize,
    ok: usize,
    aborted: bool,
    greatest: u64,
    held_final: u64,
    finals_differ: bool,
}

fn of_many_results(f: usize, replies: impl Iterator<Item = Words>) -> u64 {
    let mut seen = Seen::default();
    for reply in replies {
        let result = reply.result();
        if !is_result(result) {
            return u64::from(BAD_MESSAGE);
        }
        seen.add(result);
        if reply.is_final() {
            seen.finals_differ |= seen.held_final != 0 && seen.held_final != result;
            seen.held_final = result;
        }
    }
    seen.answer(f)
}

impl Seen {
    #[inline(always)]
    fn add(&mut self, result: u64) {
        if self.heard == 0 {
            self.first = result;
        } else if self.other == 0 && result != self.first {
            self.other = result;
        }
        self.heard += 1;
        self.like_first += usize::from(result == self.first);
        self.like_other += usize::from(result == self.other);
        self.ok += usize::from(result == OK_RESULT);
        self.aborted |= result == ABORT_RESULT;
        self.greatest = self.greatest.max(result);
    }

    fn answer(&self, f: usize) -> u64 {
        let fast = self.fast_result(f);
        let is_against = fast != 0 && self.held_final != 0 && fast != self.held_final;
        if self.finals_differ || is_against {
            u64::from(CONTRADICTION)
        } else if fast != 0 {
            coded(1, fast)
        } else {
            slow_or_wait(f, self.heard, self.slow_result(f))
        }
    }

    fn fast_result(&self, f: usize) -> u64 {
        if self.like_first >= fast_count(f) {
            self.first
        } else if self.like_other >= fast_count(f) {
            self.other
        } else {
            0
        }
    }

    fn slow_result(&self, f: usize) -> u64 {
        if self.held_final != 0 {
            self.held_final
        } else if self.aborted {
            ABORT_RESULT
        } else if self.ok > f {
            OK_RESULT
        } else if self.greatest > result(RETRY, 0) {
            self.greatest
        } else {
            result(ABSTAIN, 0)
        }
    }
}

const OK_RESULT: u64 = result(OK, 0);
const ABORT_RESULT: u64 = result(ABORT, 0);

/// A retry stamp belongs to RETRY alone.
fn is_result(number: u64) -> bool {
    let (code, has_stamp) = (number >> 48, number << 16 != 0);
    (1..=4).contains(&code) && (code == u64::from(RETRY)) == has_stamp
}

const fn result(code: u8, retry: u64) -> u64 {
    (code as u64) << 48 | retry
}

/// The kind of answer in bits 8 to 9, the result's code from bit 10 and its retry stamp from bit 16 on.
fn coded(kind: u64, result: u64) -> u64 {
    kind << 8 | result >> 48 << 10 | result << 16
}
