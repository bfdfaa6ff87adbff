//! The merge as one would write it by hand for speed: a cursor in each used table goes up once to decide and once to write,
//! and which rows are agreed is kept for the checks.

use super::answer::TABLE_BYTES;
use super::gather::{same_body, tentative, State};
use super::merge::{check_row, put_header, put_row, unchecked, waits, Survey};
use super::run::{agreement, are_wrong, is_whole, newest_view, Images};
use super::valid::{Row, MOST_ROWS};
use super::{u32_at, u64_at, HEADER_LENGTH, ROW_LENGTH};

/// At most so many tables are a quorum.
const MOST_TABLES: usize = 4;

/// The output written, if nothing refuses it; returns the number.
pub fn merge(run: &[u8], view: u32, out: &mut [u8]) -> u8 {
    if out.len() < TABLE_BYTES {
        return 1;
    }
    if !is_whole(run) {
        return 2;
    }
    if are_wrong(run, view) {
        return 11;
    }
    let seen = survey(Cursors::of(run));
    let number = seen.number();
    if number == 0 {
        let rows = seen.stamps as usize;
        let (agreed, end) = write(Cursors::of(run), rows, out, agreement(run[2]));
        put_header(out, run[2], view, seen.stamps, end);
        settle(out, rows, &agreed);
    }
    number
}

/// A place in a table: the row there is the next one.
#[derive(Clone, Copy, Default)]
struct Cursor<'a> {
    table: &'a [u8],
    index: usize,
    rows: usize,
}

impl Cursor<'_> {
    /// The stamp of its row, or a number above all stamps.
    fn stamp(&self) -> u64 {
        if self.index == self.rows {
            return u64::MAX;
        }
        u64_at(self.table, HEADER_LENGTH + ROW_LENGTH * self.index)
    }
}

/// A cursor for each used table. Those that are left over stand at the end of no rows.
struct Cursors<'a>([Cursor<'a>; MOST_TABLES]);

/// The rows of one stamp, each with the table that holds it.
#[derive(Default)]
struct Held<'a>([Option<(&'a [u8], Row)>; MOST_TABLES]);

impl<'a> Cursors<'a> {
    fn of(run: &'a [u8]) -> Cursors<'a> {
        let newest = newest_view(run);
        let used = Images(run).filter(|image| u32_at(image, 8) == newest);
        let mut cursors = [Cursor::default(); MOST_TABLES];
        for (cursor, table) in cursors.iter_mut().zip(used) {
            cursor.table = table;
            cursor.rows = u32_at(table, 4) as usize;
        }
        Cursors(cursors)
    }
}

impl<'a> Iterator for Cursors<'a> {
    type Item = (u64, Held<'a>);

    /// The least stamp of all cursors, and those that stand there go on.
    fn next(&mut self) -> Option<(u64, Held<'a>)> {
        let stamps = self.0.map(|cursor| cursor.stamp());
        let least = stamps.into_iter().fold(u64::MAX, u64::min);
        if least == u64::MAX {
            return None;
        }
        let mut held = Held::default();
        for (place, cursor) in self.0.iter_mut().enumerate() {
            if stamps[place] == least {
                held.0[place] = Some((cursor.table, Row::read(cursor.table, cursor.index)));
                cursor.index += 1;
            }
        }
        Some((least, held))
    }
}

impl<'a> Held<'a> {
    fn rows(&self) -> impl Iterator<Item = (&'a [u8], &Row)> {
        let held = self.0.iter().flatten();
        held.map(|(table, row)| (*table, row))
    }

    fn state(&self) -> State {
        let rows = self.rows();
        rows.fold(State::default(), |state, (_, row)| state.with(row))
    }

    fn two_bodies(&self) -> bool {
        let mut rows = self.rows();
        let first = rows.next();
        first.map_or(false, |first| rows.any(|other| !same_body(first, other)))
    }

    fn agreed(&self, agreement: usize) -> Option<(u8, u64)> {
        let results = || self.rows().filter_map(|(_, row)| tentative(row));
        let votes = |result| results().filter(|other| *other == result).count();
        results().find(|result| votes(*result) >= agreement)
    }
}

fn survey(cursors: Cursors) -> Survey {
    let mut seen = Survey::default();
    for (_, held) in cursors {
        seen.bodies |= held.two_bodies();
        seen.contradiction |= held.state().contradicts();
        seen.stamps += 1;
    }
    seen
}

/// Which rows are agreed.
type Agreed = [bool; MOST_ROWS as usize];

/// All rows with their bodies, each in its place; also where the last body ends.
fn write(cursors: Cursors, rows: usize, out: &mut [u8], agreement: usize) -> (Agreed, usize) {
    let mut are_agreed = [false; MOST_ROWS as usize];
    let mut due = HEADER_LENGTH + ROW_LENGTH * rows;
    for (index, (stamp, held)) in cursors.enumerate() {
        let agreed = held.agreed(agreement);
        are_agreed[index] = agreed.is_some();
        if let Some((table, row)) = held.rows().next() {
            let state = held.state();
            let (prepare, retry) = unchecked(&state, || agreed);
            let codes = [row.reads, row.writes, prepare, state.outcome()];
            due = put_row(out, index, due, [stamp, retry], codes, row.body(table));
        }
    }
    (are_agreed, due)
}

/// The checks: the agreed rows, then the open ones.
fn settle(out: &mut [u8], rows: usize, agreed: &Agreed) {
    for turn in [true, false] {
        for index in (0..rows).filter(|index| agreed[*index] == turn) {
            if waits(&Row::read(out, index)) {
                check_row(out, rows, index);
            }
        }
    }
}
