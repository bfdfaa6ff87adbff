//! Many histories, one seed after the other.

use crate::coordinator::history;
use crate::law::Law;
use crate::machine::{Machine, SECOND};
use crate::met::{Met, SIZES};
use crate::play::Play;
use crate::watch::Part;
use std::fmt::{self, Display, Formatter};
use std::ops::RangeInclusive;

/// The rows of small models. A table of the valley is never full in a history that dice play; one of these often is.
pub const SMALL_ROWS: RangeInclusive<usize> = 6..=12;

/// Which models of box play in a run.
#[derive(Clone, Copy, Debug, PartialEq, Eq)]
pub enum Models {
    /// The machine's own in every history.
    Own,
    /// Small ones in every history, whose rows follow from the seed.
    Small,
    /// Small ones in every history, with so many rows.
    OfRows(usize),
    /// Small ones in every fourth history, on the second program, as the library has none; in the others the machine's own.
    EveryFourthSmall,
}

/// One history of a run, and where it stands in it.
pub struct Found {
    pub seed: u64,
    pub n: u8,
    /// Which history of the run it was, the first being 1.
    pub after: u64,
    pub play: Play,
}

/// How the histories of a run are played.
#[derive(Clone, Copy)]
pub struct Run {
    pub machine: Machine,
    pub law: Law,
    /// History i has the seed that lies i after this one, so that each can be played alone.
    pub seed: u64,
    /// The size of the groups; without one it follows from the seed.
    pub n: Option<u8>,
    pub models: Models,
}

impl Run {
    /// History number `place` of the run, the first being 0.
    fn history(&self, place: u64) -> Found {
        let seed = self.seed + place;
        let n = self.n.unwrap_or(SIZES[(seed % 3) as usize]);
        let play = history(self.machine_of(place), self.law, n, seed);
        let after = place + 1;
        Found {
            seed,
            n,
            after,
            play,
        }
    }

    /// What plays in that history.
    fn machine_of(&self, place: u64) -> Machine {
        let sizes = SIZES.len() as u64;
        let choices = SMALL_ROWS.count() as u64;
        // Every size of a group comes with every number of rows.
        let more = (self.seed + place) / sizes % choices;
        let rows = SMALL_ROWS.start() + more as usize;
        match self.models {
            Models::Own => self.machine,
            Models::Small => self.machine.with_rows(rows),
            Models::OfRows(rows) => self.machine.with_rows(rows),
            Models::EveryFourthSmall if place % 4 == 3 => SECOND.with_rows(rows),
            Models::EveryFourthSmall => self.machine,
        }
    }

    /// Plays as long as more is wanted, or until something does not hold: how many histories that were.
    pub fn play(
        &self,
        met: &mut Met,
        mut more: impl FnMut(u64) -> bool,
    ) -> Result<u64, Box<Found>> {
        let mut played = 0;
        while more(played) {
            let found = self.history(played);
            met.add(&found.play.met);
            played += 1;
            if !found.play.held() {
                return Err(Box::new(found));
            }
        }
        Ok(played)
    }

    /// The first of so many histories in which this part is what did not hold.
    pub fn find(&self, part: Part, within: u64) -> Option<Found> {
        let mut found = (0..within).map(|place| self.history(place));
        found.find(|found| found.play.first_of(part).is_some())
    }
}

impl Display for Found {
    fn fmt(&self, f: &mut Formatter) -> fmt::Result {
        let machine = &self.play.group.machine;
        let rows = machine.model.rows;
        writeln!(
            f,
            "A history of {} boxes with {} rows each, on {}:",
            self.n, rows, machine.name
        )?;
        write!(f, "{}", self.play.words())?;
        let events = self.play.events.len();
        for violation in &self.play.violations {
            writeln!(f, "violated after {} events: {}", events, violation)?;
        }
        for violation in &self.play.out_of_order {
            writeln!(f, "violated in {} events: {}", events, violation)?;
        }
        write!(
            f,
            "to play it again: tools/simulate --seed {} --histories 1 --n {}",
            self.seed, self.n
        )?;
        match machine.is_small() {
            true => write!(f, " --rows {}", rows),
            false => Ok(()),
        }
    }
}
