//! What the tables of a merge hold for each stamp, gathered by cursors that go up all of them together.

use super::image::{ACCESS, HEADER, MOST_ROWS, ROW};
use super::merge::Table;
use super::number::{CONTRADICTION, FULL, OTHER_BODY};
use super::result::{ABORT, FINAL, OK};
use super::{u64_at, GREATEST_STAMP};

/// The length of four reads and four writes.
const FULL_BODY: usize = 8 * ACCESS;

/// In the place of a prepare byte: agreed or open, and still to be checked.
pub const AGREED: u8 = 9;
pub const OPEN: u8 = 10;

/// One row of the merge. Its body stands in the run.
#[derive(Clone, Copy, Default)]
pub struct Row {
    pub stamp: u64,
    pub retry: u64,
    pub body: u32,
    pub reads: u8,
    pub writes: u8,
    pub prepare: u8,
    pub outcome: u8,
}

impl Row {
    pub fn is_committed(&self) -> bool {
        self.outcome == 3
    }

    /// All results are final by now, and all outcomes done.
    pub fn is_prepared(&self) -> bool {
        self.prepare == OK + FINAL && self.outcome == 0
    }

    /// The body offset, the counts and the codes, as a row has them in one word.
    pub fn word(&self, offset: usize) -> u64 {
        let bytes = [self.reads, self.writes, self.prepare, self.outcome];
        (offset as u64) << 32 | u64::from(u32::from_be_bytes(bytes))
    }

    pub fn accesses<'a>(&self, run: &'a [u8]) -> (&'a [u8], &'a [u8]) {
        let reads = ACCESS * usize::from(self.reads);
        let length = reads + ACCESS * usize::from(self.writes);
        let at = self.body as usize;
        run[at..at + length].split_at(reads)
    }
}

/// The most tables that a merge takes. Loops over so many are unrolled.
pub const MOST_TABLES: usize = 4;

/// Above all stamps.
const NO_STAMP: u64 = u64::MAX;

/// Tables on their way up: of each the heads that are left, the stamp of the first of them, and where it begins in the run.
struct Cursors<'a> {
    heads: [&'a [u8]; MOST_TABLES],
    stamps: [u64; MOST_TABLES],
    at: [u32; MOST_TABLES],
}

/// The next row of a table: its retry stamp, its counts and codes in one word, and where its body stands in the run.
#[derive(Clone, Copy, Default)]
struct Next {
    retry: u64,
    word: u32,
    body: u32,
}

impl<'a> Cursors<'a> {
    /// Cursors in the tables of the greatest view.
    fn of(run: &'a [u8], tables: &[Option<Table>; MOST_TABLES]) -> Cursors<'a> {
        let views = tables.iter().flatten().map(|table| table.header.view);
        let greatest = views.max();
        let mut cursors = Cursors {
            heads: [&[]; MOST_TABLES],
            stamps: [NO_STAMP; MOST_TABLES],
            at: [0; MOST_TABLES],
        };
        for (place, table) in tables.iter().flatten().enumerate() {
            if Some(table.header.view) == greatest {
                let from = table.at + HEADER;
                cursors.heads[place] = &run[from..from + ROW * table.header.rows];
                cursors.stamps[place] = first_stamp(cursors.heads[place]);
                cursors.at[place] = table.at as u32;
            }
        }
        cursors
    }

    #[inline(always)]
    fn least(&self) -> u64 {
        let [first, second, third, fourth] = self.stamps;
        first.min(second).min(third.min(fourth))
    }

    #[inline(always)]
    fn next(&self, place: usize) -> Next {
        let head: &[u8; ROW] = self.heads[place][..ROW].try_into().expect("a row");
        let word = u64_at(head, 16);
        Next {
            retry: u64_at(head, 8),
            word: word as u32,
            body: self.at[place] + (word >> 32) as u32,
        }
    }

    /// Those with this stamp go on to their next row.
    #[inline(always)]
    fn go_on(&mut self, stamp: u64) {
        for place in 0..MOST_TABLES {
            if self.stamps[place] == stamp {
                self.heads[place] = &self.heads[place][ROW..];
                self.stamps[place] = first_stamp(self.heads[place]);
            }
        }
    }
}

#[inline(always)]
fn first_stamp(heads: &[u8]) -> u64 {
    if heads.len() < ROW {
        return NO_STAMP;
    }
    u64_at(heads, 0)
}

/// Gathers the tables of the greatest view into rows with rising stamps, and returns how many those are. Another body is
/// found before a contradiction counts, and that before all is full.
pub fn gather(
    run: &[u8],
    tables: &[Option<Table>; MOST_TABLES],
    agreement: u32,
    rows: &mut [Row; MOST_ROWS],
) -> Result<usize, u8> {
    let mut cursors = Cursors::of(run, tables);
    let (mut count, mut contradiction) = (0, false);
    loop {
        let least = cursors.least();
        if least == NO_STAMP {
            break;
        }
        let mut row = match held_alike(run, &cursors, least)? {
            Some((next, tables)) => alike(next, tables >= agreement),
            None => {
                let held = held_unlike(run, &cursors, least)?;
                contradiction |= held.contradiction;
                held.row(agreement)
            }
        };
        row.stamp = least;
        if let Some(place) = rows.get_mut(count) {
            *place = row;
        }
        cursors.go_on(least);
        count += 1;
    }
    match (contradiction, count > MOST_ROWS) {
        (true, _) => Err(CONTRADICTION),
        (_, true) => Err(FULL),
        _ => Ok(count),
    }
}

/// What all tables that have a stamp hold for it, and how many those are; nothing if two hold different things.
#[inline(always)]
fn held_alike(run: &[u8], cursors: &Cursors, stamp: u64) -> Result<Option<(Next, u32)>, u8> {
    let (mut first, mut tables) = (Next::default(), 0);
    for place in 0..MOST_TABLES {
        if cursors.stamps[place] != stamp {
            continue;
        }
        let next = cursors.next(place);
        if tables == 0 {
            first = next;
        } else if (next.retry, next.word) != (first.retry, first.word) {
            return Ok(None);
        } else if !has_body(run, first.body, next.body, first.word) {
            return Err(OTHER_BODY);
        }
        tables += 1;
    }
    Ok(Some((first, tables)))
}

/// The row of a stamp for which all tables hold the same.
#[inline(always)]
fn alike(next: Next, is_agreed: bool) -> Row {
    let [reads, writes, prepare, outcome] = next.word.to_be_bytes();
    let outcome = done(outcome);
    let (prepare, retry) = match prepare {
        0 | 5.. => (prepare, next.retry),
        _ if is_agreed => agreed(prepare, next.retry, outcome),
        _ => open(outcome),
    };
    Row {
        stamp: 0,
        retry,
        body: next.body,
        reads,
        writes,
        prepare,
        outcome,
    }
}

/// An outcome becomes done: 3 is commit and 4 is abort.
#[inline(always)]
fn done(outcome: u8) -> u8 {
    match outcome {
        0 => 0,
        _ => 4 - outcome % 2,
    }
}

#[inline(always)]
fn agreed(code: u8, retry: u64, outcome: u8) -> (u8, u64) {
    if code == OK && outcome == 0 {
        return (AGREED, 0);
    }
    (code + FINAL, retry)
}

#[inline(always)]
fn open(outcome: u8) -> (u8, u64) {
    match outcome {
        0 => (OPEN, 0),
        3 => (OK + FINAL, 0),
        _ => (ABORT + FINAL, 0),
    }
}

/// What the tables hold for a stamp if two of them hold different things.
#[inline(never)]
fn held_unlike(run: &[u8], cursors: &Cursors, stamp: u64) -> Result<Held, u8> {
    let mut held = Held::default();
    for place in 0..MOST_TABLES {
        if cursors.stamps[place] != stamp {
            continue;
        }
        let next = cursors.next(place);
        let first = *held.next.get_or_insert(next);
        let has_same_counts = next.word >> 16 == first.word >> 16;
        if !has_same_counts || !has_body(run, first.body, next.body, next.word) {
            return Err(OTHER_BODY);
        }
        held.take(next);
    }
    Ok(held)
}

/// Whether two bodies, with the counts in this word, are the same bytes. Most are of one length, which needs no call.
#[inline(always)]
fn has_body(run: &[u8], one: u32, other: u32, word: u32) -> bool {
    let [reads, writes, ..] = word.to_be_bytes();
    let (one, other) = (&run[one as usize..], &run[other as usize..]);
    let length = ACCESS * usize::from(reads + writes);
    if length == FULL_BODY {
        let one: &[u8; FULL_BODY] = one[..FULL_BODY].try_into().expect("a full body");
        let other: &[u8; FULL_BODY] = other[..FULL_BODY].try_into().expect("a full body");
        return one == other;
    }
    one[..length] == other[..length]
}

/// What the tables hold for one stamp. A result is its code above 48 bits of retry stamp, and 0 is none. One that is agreed
/// is held by so many of the few tables that it is the first, or the first other one.
#[derive(Default)]
struct Held {
    /// Of the first table.
    next: Option<Next>,
    final_result: u64,
    first: u64,
    like_first: u32,
    other: u64,
    like_other: u32,
    outcome: u8,
    contradiction: bool,
}

impl Held {
    /// Adds the prepare byte and the outcome byte of one more table.
    fn take(&mut self, next: Next) {
        let [_, _, prepare, outcome] = next.word.to_be_bytes();
        let result = u64::from(prepare) << 48 | next.retry;
        if prepare > FINAL {
            self.contradiction |= self.final_result != 0 && self.final_result != result;
            self.final_result = result;
        } else if prepare > 0 {
            self.take_tentative(result);
        }
        if outcome != 0 {
            self.contradiction |= self.outcome != 0 && self.outcome != done(outcome);
            self.outcome = done(outcome);
        }
    }

    fn take_tentative(&mut self, result: u64) {
        if self.like_first == 0 {
            self.first = result;
        } else if self.like_other == 0 && result != self.first {
            self.other = result;
        }
        self.like_first += u32::from(result == self.first);
        self.like_other += u32::from(result == self.other);
    }

    fn row(&self, agreement: u32) -> Row {
        let next = self.next.unwrap_or_default();
        let [reads, writes, ..] = next.word.to_be_bytes();
        let (prepare, retry) = self.prepare(agreement);
        Row {
            stamp: 0,
            retry,
            body: next.body,
            reads,
            writes,
            prepare,
            outcome: self.outcome,
        }
    }

    /// The final prepare byte and its retry stamp, or that it is still to be checked.
    fn prepare(&self, agreement: u32) -> (u8, u64) {
        let parts = |result: u64| ((result >> 48) as u8, result & GREATEST_STAMP);
        if self.final_result != 0 {
            return parts(self.final_result);
        }
        if self.like_first == 0 {
            return (0, 0);
        }
        let result = if self.like_first >= agreement {
            self.first
        } else if self.like_other >= agreement {
            self.other
        } else {
            return open(self.outcome);
        };
        let (code, retry) = parts(result);
        agreed(code, retry, self.outcome)
    }
}
