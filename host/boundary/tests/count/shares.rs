//! How often each answer was given, and for which reason, so that no comparison holds for want of a case. The reasons are
//! found here from the bytes alone, apart from both programs.

use samples::replies::RECORD_LENGTH;
use samples::GREATEST_STAMP;
use std::fmt::{self, Display, Formatter};

/// The groups of 3, 5 and 7 boxes, and every other n.
const COLUMNS: [&str; 4] = ["n 3", "n 5", "n 7", "other n"];
const GROUPS: [bool; 4] = [true, true, true, false];
/// The fast count of three boxes is all of them, so that none is left to disagree.
const LARGER_GROUPS: [bool; 4] = [false, true, true, false];

/// What an answer is and why, and for which n it can be. An answer is one of those up to the last 6; what follows is more
/// about some of them.
const ROWS: [(&str, [bool; 4]); 30] = [
    ("wait, no replies", GROUPS),
    ("wait, some replies", GROUPS),
    ("fast OK", GROUPS),
    ("fast ABORT", GROUPS),
    ("fast ABSTAIN", GROUPS),
    ("fast RETRY", GROUPS),
    ("slow OK, which is final", GROUPS),
    ("slow ABORT, which is final", GROUPS),
    ("slow ABSTAIN, which is final", GROUPS),
    ("slow RETRY, which is final", GROUPS),
    ("slow OK, none final", GROUPS),
    ("slow ABORT, none final", GROUPS),
    ("slow ABSTAIN, none final", GROUPS),
    ("slow RETRY, none final", GROUPS),
    ("3 for n alone", [false, false, false, true]),
    ("3 for the length alone", GROUPS),
    ("3 for a box outside alone", GROUPS),
    ("3 for a box twice alone", GROUPS),
    ("3 for unequal views alone", GROUPS),
    ("3 for a result's code alone", GROUPS),
    ("3 for a retry stamp alone", GROUPS),
    ("3 for a final byte alone", GROUPS),
    ("3 for several of these", [true; 4]),
    ("6 for unequal finals alone", GROUPS),
    ("6 for a fast count alone", LARGER_GROUPS),
    ("6 for both", LARGER_GROUPS),
    ("fast, and one is final", GROUPS),
    ("fast, and one disagrees", LARGER_GROUPS),
    ("slow RETRY of unequal stamps", GROUPS),
    ("3 with unequal finals", GROUPS),
];
const WAIT: usize = 0;
/// The rows of OK; those of the other results follow.
const FAST: usize = 2;
const SLOW_FINAL: usize = 6;
const SLOW: usize = 10;
/// The row of the first cause; those of the others follow, and then that of several.
const BAD: usize = 14;
const CAUSES: usize = 8;
const UNEQUAL_FINALS: usize = 23;
const FAST_BESIDE: usize = 24;
const BOTH: usize = 25;
const MORE: usize = 26;

#[derive(Default)]
pub struct Shares {
    calls: [u64; COLUMNS.len()],
    rows: [[u64; COLUMNS.len()]; ROWS.len()],
    /// How many calls were made with records.
    pub as_records: u64,
}

fn column(n: u8) -> usize {
    match n {
        3 => 0,
        5 => 1,
        7 => 2,
        _ => 3,
    }
}

fn records(replies: &[u8]) -> impl Iterator<Item = &[u8]> {
    replies.chunks_exact(RECORD_LENGTH)
}

/// The code with its retry stamp.
fn result(record: &[u8]) -> &[u8] {
    &record[5..14]
}

fn retry(record: &[u8]) -> u64 {
    u64::from_be_bytes(record[6..14].try_into().expect("eight bytes"))
}

fn is_final(record: &&[u8]) -> bool {
    record[14] == 1
}

/// Which causes of 3 there are, in the order of their rows. Where n is bad no box is outside, and the stamp of a bad code
/// is not looked at.
fn causes(n: u8, replies: &[u8]) -> [bool; CAUSES] {
    let any = |is_bad: &dyn Fn(&[u8]) -> bool| records(replies).any(is_bad);
    let is_bad_n = column(n) == 3;
    [
        is_bad_n,
        replies.len() % RECORD_LENGTH != 0,
        !is_bad_n && any(&|record| record[0] >= n),
        box_twice(replies),
        any(&|record| record[1..5] != replies[1..5]),
        any(&|record| !matches!(record[5], 1..=4)),
        any(&|record| match record[5] {
            1..=3 => retry(record) != 0,
            4 => retry(record) == 0 || retry(record) > GREATEST_STAMP,
            _ => false,
        }),
        any(&|record| record[14] > 1),
    ]
}

fn box_twice(replies: &[u8]) -> bool {
    let mut seen = [false; 256];
    records(replies).any(|record| std::mem::replace(&mut seen[usize::from(record[0])], true))
}

fn unequal_finals(replies: &[u8]) -> bool {
    let mut finals = records(replies).filter(is_final).map(result);
    let first = finals.next();
    finals.any(|other| Some(other) != first)
}

/// Whether the fast count of replies have the result of this one.
fn is_fast(n: u8, replies: &[u8], record: &[u8]) -> bool {
    let agreeing = records(replies).filter(|other| result(other) == result(record));
    agreeing.count() >= [3, 4, 6, 256][column(n)]
}

fn fast_beside_final(n: u8, replies: &[u8]) -> bool {
    let against = |record: &[u8]| {
        let mut finals = records(replies).filter(is_final);
        finals.any(|other| result(other) != result(record))
    };
    records(replies).any(|record| against(record) && is_fast(n, replies, record))
}

/// The row of an answer.
fn row(n: u8, replies: &[u8], answer: u64) -> usize {
    let code = (answer >> 10 & 7) as usize;
    match (answer & 0xff, answer >> 8 & 3) {
        (0, 0) => WAIT + usize::from(!replies.is_empty()),
        (0, 1) => FAST + code - 1,
        (0, _) if records(replies).any(|record| is_final(&record)) => SLOW_FINAL + code - 1,
        (0, _) => SLOW + code - 1,
        (3, _) => BAD + which_cause(causes(n, replies)),
        _ => match (unequal_finals(replies), fast_beside_final(n, replies)) {
            (true, false) => UNEQUAL_FINALS,
            (false, true) => FAST_BESIDE,
            (true, true) => BOTH,
            (false, false) => panic!("6 for nothing, n {}: {:02x?}", n, replies),
        },
    }
}

/// The only cause, or the place behind them if there are several.
fn which_cause(causes: [bool; CAUSES]) -> usize {
    let mut there = (0..CAUSES).filter(|cause| causes[*cause]);
    match (there.next(), there.next()) {
        (Some(only), None) => only,
        (Some(_), Some(_)) => CAUSES,
        (None, _) => panic!("3 for nothing"),
    }
}

/// What more there is to say of an answer, in the order of its rows.
fn more(replies: &[u8], answer: u64) -> [bool; ROWS.len() - MORE] {
    let differ = || {
        let mut results = records(replies).map(result);
        let first = results.next();
        results.any(|other| Some(other) != first)
    };
    let has_final = || records(replies).any(|record| is_final(&record));
    let stamps_differ = || {
        let mut stamps = records(replies).map(retry).filter(|stamp| *stamp > 0);
        let first = stamps.next();
        stamps.any(|other| Some(other) != first)
    };
    let (fast, slow_retry) = (answer & 0x3ff == 0x100, answer & 0x1fff == 0x1200);
    [
        fast && has_final(),
        fast && differ(),
        slow_retry && !has_final() && stamps_differ(),
        answer == 3 && unequal_finals(replies),
    ]
}

impl Shares {
    pub fn count(&mut self, n: u8, replies: &[u8], answer: u64) {
        let column = column(n);
        self.calls[column] += 1;
        self.rows[row(n, replies, answer)][column] += 1;
        // Nothing more is said of a group that there is none of.
        let more = more(replies, answer).map(|is_such| is_such && column < 3);
        for (row, is_such) in self.rows[MORE..].iter_mut().zip(more) {
            row[column] += u64::from(is_such);
        }
    }

    pub fn add(&mut self, other: &Shares) {
        add_all(&mut self.calls, &other.calls);
        self.as_records += other.as_records;
        let rows = self.rows.iter_mut().zip(&other.rows);
        rows.for_each(|(here, there)| add_all(here, there));
    }

    pub fn calls(&self) -> u64 {
        self.calls.iter().sum()
    }

    /// That everything which can be was met at least so often, and nothing else was.
    pub fn assert_all_met(&self, least: u64) {
        for ((name, possible), counts) in ROWS.iter().zip(&self.rows) {
            for column in 0..COLUMNS.len() {
                let count = counts[column];
                let right = if possible[column] {
                    count >= least
                } else {
                    count == 0
                };
                assert!(right, "{}, {}: {} times", name, COLUMNS[column], count);
            }
        }
    }
}

fn add_all(here: &mut [u64], there: &[u64]) {
    for (count, more) in here.iter_mut().zip(there) {
        *count += more;
    }
}

/// A column for each group, a line for each row.
impl Display for Shares {
    fn fmt(&self, f: &mut Formatter) -> fmt::Result {
        write!(f, "count: {} calls{:12}", self.calls(), "")?;
        COLUMNS
            .iter()
            .try_for_each(|name| write!(f, "{:>17}", name))?;
        for ((name, _), counts) in ROWS.iter().zip(&self.rows) {
            write!(f, "\n{:30}", name)?;
            for (count, all) in counts.iter().zip(self.calls) {
                let share = match count {
                    0 => String::new(),
                    _ => format!("{} {:5.1}%", count, 100.0 * *count as f64 / all as f64),
                };
                write!(f, "{:>17}", share)?;
            }
        }
        write!(f, "\nwith records: {} calls", self.as_records)
    }
}
