//! How often the check for messages 1 said what, by where the new stamp lay among those that were held.

use std::fmt::{self, Display, Formatter};

/// "no entry may be slipped under one already accepted": so it matters whether later rows are there.
const PLACES: [&str; 3] = ["below all stamps held", "between them", "above them"];
const BELOW: usize = 0;
const BETWEEN: usize = 1;
const ABOVE: usize = 2;

const RESULTS: [&str; 4] = ["OK", "ABORT", "ABSTAIN", "RETRY"];
const RETRY: usize = 3;

#[derive(Clone, Debug, Default, PartialEq, Eq)]
pub struct Checked([[u64; RESULTS.len()]; PLACES.len()]);

impl Checked {
    /// A new stamp that was checked to a result, 1 to 4, beside others. The first row of a table lies at no such place.
    pub fn count(&mut self, mut others: impl Iterator<Item = u64> + Clone, stamp: u64, result: u8) {
        let has_earlier = others.clone().any(|other| other < stamp);
        let has_later = others.any(|other| stamp < other);
        let place = match (has_earlier, has_later) {
            (false, true) => BELOW,
            (true, true) => BETWEEN,
            (true, false) => ABOVE,
            (false, false) => return,
        };
        self.0[place][usize::from(result) - 1] += 1;
    }

    pub fn add(&mut self, other: &Checked) {
        let here = self.0.iter_mut().flatten();
        here.zip(other.0.iter().flatten())
            .for_each(|(count, more)| *count += more);
    }

    /// What was met more seldom than so often, and what was met that cannot be: above all rows there is none that RETRY
    /// could name.
    pub fn missing(&self, least: u64) -> Vec<String> {
        let mut missing = Vec::new();
        for (place, counts) in self.0.iter().enumerate() {
            for (result, count) in counts.iter().enumerate() {
                let right = match (place, result) {
                    (ABOVE, RETRY) => *count == 0,
                    _ => *count >= least,
                };
                if !right {
                    let (place, result) = (PLACES[place], RESULTS[result]);
                    missing.push(format!("checked to {} {}: {} times", result, place, count));
                }
            }
        }
        missing
    }
}

/// A line for each place, a column for each result with its share.
impl Display for Checked {
    fn fmt(&self, f: &mut Formatter) -> fmt::Result {
        write!(f, "| message 1 checked | times |")?;
        RESULTS
            .iter()
            .try_for_each(|name| write!(f, " {} |", name))?;
        write!(f, "\n|---|---|---|---|---|---|")?;
        for (place, counts) in PLACES.iter().zip(&self.0) {
            let all: u64 = counts.iter().sum();
            write!(f, "\n| {} | {} |", place, all)?;
            for count in counts {
                let share = 100.0 * *count as f64 / all.max(1) as f64;
                write!(f, " {} ({:.1}%) |", count, share)?;
            }
        }
        Ok(())
    }
}

#[cfg(test)]
mod tests {
    use super::Checked;

    #[test]
    fn a_stamp_lies_below_all_others_between_them_or_above_them() {
        let mut checked = Checked::default();
        for (others, stamp, result) in [
            (&[][..], 5, 1),
            (&[6, 9], 5, 4),
            (&[3, 9], 5, 2),
            (&[9, 3, 4], 5, 2),
            (&[3, 4], 5, 3),
        ] {
            checked.count(others.iter().copied(), stamp, result);
        }
        assert_eq!(checked.0, [[0, 0, 0, 1], [0, 2, 0, 0], [0, 0, 1, 0]]);
    }

    #[test]
    fn what_was_not_met_is_missing_and_what_cannot_be_is_told() {
        let mut checked = Checked([[2; 4], [2, 2, 2, 1], [2, 2, 2, 0]]);
        assert_eq!(checked.missing(1), Vec::<String>::new());
        assert_eq!(
            checked.missing(2),
            ["checked to RETRY between them: 1 times"]
        );
        checked.add(&Checked([[0; 4], [0, 0, 0, 1], [0, 0, 0, 1]]));
        assert_eq!(checked.missing(2), ["checked to RETRY above them: 1 times"]);
    }
}
