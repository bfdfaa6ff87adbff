//! How often each thing was met in histories of 3, 5 and 7 boxes, so that no history is an empty one.

use std::collections::BTreeMap;
use std::fmt::{self, Display, Formatter};

/// The sizes of a group, in the order of the columns.
pub const SIZES: [u8; 3] = [3, 5, 7];

#[derive(Clone, Debug, Default, PartialEq, Eq)]
pub struct Met {
    times: BTreeMap<String, [u64; 3]>,
}

impl Met {
    /// Something was met once more, by a group of n boxes.
    pub fn once(&mut self, what: &str, n: u8) {
        self.more(what, n, 1);
    }

    pub fn more(&mut self, what: &str, n: u8, times: u64) {
        let column = usize::from(n.saturating_sub(3) / 2);
        match self.times.get_mut(what) {
            Some(counts) => counts[column] += times,
            None => {
                let mut counts = [0; 3];
                counts[column] = times;
                self.times.insert(what.to_string(), counts);
            }
        }
    }

    pub fn add(&mut self, other: &Met) {
        for (what, counts) in &other.times {
            for (n, count) in SIZES.iter().zip(counts) {
                self.more(what, *n, *count);
            }
        }
    }

    /// How often, by groups of all sizes together.
    pub fn all(&self, what: &str) -> u64 {
        self.times.get(what).map_or(0, |counts| counts.iter().sum())
    }

    /// How often, by groups of 3, of 5 and of 7 boxes.
    pub fn by_size(&self, what: &str) -> [u64; 3] {
        self.times.get(what).copied().unwrap_or_default()
    }

    pub fn kinds(&self) -> impl Iterator<Item = &str> {
        self.times.keys().map(String::as_str)
    }
}

/// A line for each thing, a column for each size of a group.
impl Display for Met {
    fn fmt(&self, f: &mut Formatter) -> fmt::Result {
        writeln!(
            f,
            "{:56}{:>12}{:>12}{:>12}{:>13}",
            "met", "n 3", "n 5", "n 7", "all"
        )?;
        self.times.iter().try_for_each(|(what, counts)| {
            let all: u64 = counts.iter().sum();
            writeln!(
                f,
                "{:56}{:>12}{:>12}{:>12}{:>13}",
                what, counts[0], counts[1], counts[2], all
            )
        })
    }
}
