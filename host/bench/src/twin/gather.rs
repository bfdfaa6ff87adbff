//! What the used tables of a run hold of one stamp, as the proved library gathers it: each question walks the run again and
//! looks the stamp up in every table of the newest view.

use super::run::Images;
use super::search::Search;
use super::valid::{Header, Row};
use super::{u64_at, HEADER_LENGTH, ROW_LENGTH};
use std::marker::PhantomData;

/// A final prepare byte is above it, a tentative one is not.
pub(super) const GREATEST_TENTATIVE: u8 = 4;

/// The used tables of a run, those of the newest view, in which stamps are found by this search.
#[derive(Clone, Copy)]
pub(super) struct Used<'a, S> {
    pub(super) run: &'a [u8],
    pub(super) newest: u32,
    pub(super) search: PhantomData<S>,
}

impl<'a, S: Search> Used<'a, S> {
    /// The row of a stamp in an image, if the image is used and holds it.
    fn row_in(self, image: &[u8], stamp: u64) -> Option<Row> {
        let header = Header::read(image);
        if header.view != self.newest {
            return None;
        }
        let index = S::find(image, header.rows, stamp).ok()?;
        Some(Row::read(image, index))
    }

    /// The rows of a stamp.
    fn rows(self, stamp: u64) -> impl Iterator<Item = Row> + 'a {
        Images(self.run).filter_map(move |image| self.row_in(image, stamp))
    }

    /// The first image that holds a stamp, and the row there.
    pub(super) fn first(self, stamp: u64) -> Option<(&'a [u8], Row)> {
        let first = Images(self.run).find(|image| self.row_in(image, stamp).is_some())?;
        Some((first, self.row_in(first, stamp)?))
    }

    /// The least stamp above the last one.
    pub(super) fn next_stamp(self, last: u64) -> Option<u64> {
        let above = |image| self.stamp_above(image, last);
        Images(self.run).filter_map(above).min()
    }

    fn stamp_above(self, image: &[u8], last: u64) -> Option<u64> {
        let header = Header::read(image);
        if header.view != self.newest {
            return None;
        }
        let (Ok(index) | Err(index)) = S::find(image, header.rows, last + 1);
        let at = HEADER_LENGTH + ROW_LENGTH * index;
        (index < header.rows as usize).then(|| u64_at(image, at))
    }

    pub(super) fn two_bodies(self, stamp: u64) -> bool {
        self.first(stamp).map_or(false, |(first, row)| {
            let other = |image: &[u8]| {
                let held = self.row_in(image, stamp);
                held.map_or(false, |held| !same_body((first, &row), (image, &held)))
            };
            Images(self.run).any(other)
        })
    }

    pub(super) fn state(self, stamp: u64) -> State {
        let rows = self.rows(stamp);
        rows.fold(State::default(), |state, row| state.with(&row))
    }

    /// A tentative result that enough tables hold, with its retry stamp.
    pub(super) fn agreed(self, stamp: u64, agreement: usize) -> Option<(u8, u64)> {
        let results = || self.rows(stamp).filter_map(|row| tentative(&row));
        let votes = |result| results().filter(|other| *other == result).count();
        results().find(|result| votes(*result) >= agreement)
    }
}

pub(super) fn tentative(row: &Row) -> Option<(u8, u64)> {
    let held = (row.prepare, row.retry);
    (1..=GREATEST_TENTATIVE).contains(&held.0).then_some(held)
}

/// Whether two rows, each with the image that holds it, have the same body.
pub(super) fn same_body(one: (&[u8], &Row), other: (&[u8], &Row)) -> bool {
    (one.1.reads, one.1.writes) == (other.1.reads, other.1.writes)
        && one.1.body(one.0) == other.1.body(other.0)
}

/// What the tables hold of one stamp.
#[derive(Clone, Copy, Default)]
pub(super) struct State {
    /// The prepare byte of a final result with its retry stamp, or 0 and 0.
    pub(super) decided: (u8, u64),
    unequal: bool,
    /// Whether any prepare is held.
    pub(super) held: bool,
    commit: bool,
    abort: bool,
}

impl State {
    pub(super) fn with(mut self, row: &Row) -> State {
        let prepare = (row.prepare, row.retry);
        self.held |= row.prepare != 0;
        if row.prepare > GREATEST_TENTATIVE {
            self.unequal |= self.decided.0 != 0 && self.decided != prepare;
            self.decided = prepare;
        }
        self.commit |= matches!(row.outcome, 1 | 3);
        self.abort |= matches!(row.outcome, 2 | 4);
        self
    }

    pub(super) fn contradicts(&self) -> bool {
        self.unequal || (self.commit && self.abort)
    }

    /// The outcome byte that the merged row has.
    pub(super) fn outcome(&self) -> u8 {
        match (self.commit, self.abort) {
            (true, _) => 3,
            (false, true) => 4,
            (false, false) => 0,
        }
    }
}
