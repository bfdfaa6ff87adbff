//! How often each call ended with each number, how often an answer came with each count of compared rows, how often a
//! check said RETRY with a prepared row's stamp, what the check said to messages 1 wherever their stamps lay, and what came of
//! new stamps where there was room for one row or for none, so that an attack without a difference is no empty one.

use samples::kinds::NUMBERS as NUMBERS_OF_KINDS;
use samples::room::Ends;
use samples::Checked;
use std::fmt::{self, Display, Formatter};

const NUMBERS: usize = 12;
/// "at most 10 for 512 rows"
const COUNTS: usize = 11;

/// A call, and for the answer the kind of message; 0 for kinds that there are not, and for no bytes at all.
#[derive(Clone, Copy, Debug, PartialEq, Eq)]
pub enum Call {
    Fresh,
    Valid,
    Answer(u8),
    /// The answer to a message of any kind by the call that says the number alone.
    NumberAlone,
    Merge,
    Count,
    CountRecords,
}

/// Each call, its name, and the numbers that the paper has for it.
const CALLS: [(Call, &str, &[u8]); 14] = [
    (Call::Fresh, "fresh", &[0, 1, 3]),
    (Call::Valid, "valid", &[0, 2]),
    (Call::Answer(0), "answer to no kind", NUMBERS_OF_KINDS[0]),
    (Call::Answer(1), "answer to 1", NUMBERS_OF_KINDS[1]),
    (Call::Answer(2), "answer to 2", NUMBERS_OF_KINDS[2]),
    (Call::Answer(3), "answer to 3", NUMBERS_OF_KINDS[3]),
    (Call::Answer(4), "answer to 4", NUMBERS_OF_KINDS[4]),
    (Call::Answer(5), "answer to 5", NUMBERS_OF_KINDS[5]),
    (Call::Answer(6), "answer to 6", NUMBERS_OF_KINDS[6]),
    (Call::Answer(7), "answer to 7", NUMBERS_OF_KINDS[7]),
    (
        Call::NumberAlone,
        "answer, the number alone",
        &[0, 1, 2, 3, 4, 5, 6, 7, 8, 9, 10],
    ),
    (Call::Merge, "merge", &[0, 1, 2, 5, 6, 7, 11]),
    (Call::Count, "count", &[0, 3, 6]),
    (Call::CountRecords, "count of records", &[0, 3, 6]),
];

/// The calls that check, and what they leave.
const CHECKS: [(Call, &str); 2] = [(Call::Answer(1), "answers"), (Call::Merge, "merges")];

impl Call {
    /// The answer to these bytes.
    pub fn answering(message: &[u8]) -> Call {
        match message.first() {
            Some(kind @ 1..=7) => Call::Answer(*kind),
            _ => Call::Answer(0),
        }
    }
}

#[derive(Clone, Debug, Default, PartialEq, Eq)]
pub struct Met {
    numbers: [[u64; NUMBERS]; CALLS.len()],
    compared: [u64; COUNTS],
    /// Calls whose check said RETRY with a prepared row's stamp.
    at_prepared: [u64; CHECKS.len()],
    /// Messages 1 that were checked.
    pub checked: Checked,
    /// New stamps of messages 1 and 3 about the last row that there is room for.
    pub ends: Ends,
}

impl Met {
    pub fn count(&mut self, call: Call, number: u8) {
        let place = CALLS.iter().position(|(other, _, _)| *other == call);
        self.numbers[place.expect("a call of the list")][usize::from(number)] += 1;
    }

    /// An answer that came with so many rows compared.
    pub fn count_compared(&mut self, rows: usize) {
        self.compared[rows] += 1;
    }

    /// A call whose check said RETRY with the stamp of a row that is prepared.
    pub fn count_at_prepared(&mut self, call: Call) {
        let place = CHECKS.iter().position(|(other, _)| *other == call);
        self.at_prepared[place.expect("a call that checks")] += 1;
    }

    pub fn add(&mut self, other: &Met) {
        let here = self.numbers.iter_mut().flatten().chain(&mut self.compared);
        let there = other.numbers.iter().flatten().chain(&other.compared);
        here.zip(there).for_each(|(count, more)| *count += more);
        let at_prepared = self.at_prepared.iter_mut().zip(&other.at_prepared);
        at_prepared.for_each(|(count, more)| *count += more);
        self.checked.add(&other.checked);
        self.ends.add(&other.ends);
    }

    pub fn calls(&self) -> u64 {
        self.numbers.iter().flatten().sum()
    }

    /// What was met more seldom than so often, though the paper has it, and what was met though it has it not.
    pub fn missing(&self, least: u64) -> Vec<String> {
        let mut missing = Vec::new();
        for ((_, name, possible), counts) in CALLS.iter().zip(&self.numbers) {
            for (number, count) in counts.iter().enumerate() {
                let right = match possible.contains(&(number as u8)) {
                    true => *count >= least,
                    false => *count == 0,
                };
                if !right {
                    missing.push(format!("{}, number {}: {} times", name, number, count));
                }
            }
        }
        for (rows, count) in self.compared.iter().enumerate() {
            if *count < least {
                missing.push(format!("{} rows compared: {} times", rows, count));
            }
        }
        for ((_, left), count) in CHECKS.iter().zip(&self.at_prepared) {
            if *count < least {
                let what = "RETRY with a prepared row's stamp";
                missing.push(format!("{}, {}: {} times", what, left, count));
            }
        }
        missing.extend(self.checked.missing(least));
        missing.extend(self.ends.missing(least));
        missing
    }
}

/// A line for each call, a column for each number; then the answers, with a column for each count; then the answers and
/// the merges with RETRY at a prepared row's stamp; then what the check said to messages 1; then what came of new stamps.
impl Display for Met {
    fn fmt(&self, f: &mut Formatter) -> fmt::Result {
        write!(f, "| call | calls |")?;
        (0..NUMBERS).try_for_each(|number| write!(f, " {} |", number))?;
        write!(f, "\n|---|---|")?;
        (0..NUMBERS).try_for_each(|_| write!(f, "---|"))?;
        for ((_, name, possible), counts) in CALLS.iter().zip(&self.numbers) {
            write!(f, "\n| {} | {} |", name, counts.iter().sum::<u64>())?;
            for (number, count) in counts.iter().enumerate() {
                match possible.contains(&(number as u8)) || *count > 0 {
                    true => write!(f, " {} |", count)?,
                    false => write!(f, " |")?,
                }
            }
        }
        write!(f, "\n\n| rows compared |")?;
        (0..COUNTS).try_for_each(|rows| write!(f, " {} |", rows))?;
        write!(f, "\n|---|")?;
        (0..COUNTS).try_for_each(|_| write!(f, "---|"))?;
        write!(f, "\n| answers |")?;
        let mut counts = self.compared.iter();
        counts.try_for_each(|count| write!(f, " {} |", count))?;
        write!(
            f,
            "\n\n| RETRY with a prepared row's stamp | times |\n|---|---|"
        )?;
        let mut checks = CHECKS.iter().zip(&self.at_prepared);
        checks.try_for_each(|((_, left), count)| write!(f, "\n| {} | {} |", left, count))?;
        write!(f, "\n\n{}\n\n{}", self.checked, self.ends)
    }
}
