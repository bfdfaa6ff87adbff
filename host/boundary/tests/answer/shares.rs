//! How often each kind of message was answered with each number, and what the check said to messages 1, so that no
//! comparison holds for want of a case.

use reference::{Row, Table};
use samples::kinds::NUMBERS as NUMBERS_OF_KINDS;
use samples::Checked;
use std::fmt::{self, Display, Formatter};

/// The kinds, and the numbers that the paper has for each.
const POSSIBLE: [(&str, &[u8]); KINDS] = [
    ("unknown", NUMBERS_OF_KINDS[0]),
    ("1", NUMBERS_OF_KINDS[1]),
    ("2", NUMBERS_OF_KINDS[2]),
    ("3", NUMBERS_OF_KINDS[3]),
    ("4", NUMBERS_OF_KINDS[4]),
    ("5", NUMBERS_OF_KINDS[5]),
    ("6", NUMBERS_OF_KINDS[6]),
    ("7", NUMBERS_OF_KINDS[7]),
    ("empty", NUMBERS_OF_KINDS[0]),
];
const KINDS: usize = 9;
const NUMBERS: usize = 12;

/// The state byte of a tentative RETRY.
const RETRY: u8 = 4;

/// The state bytes that the paper has in the reply to each kind that was done.
const STATES: [&[u8]; KINDS] = [
    &[],
    &[1, 2, 3, 4, 5, 6, 7, 8],
    &[5, 6, 7, 8],
    &[1, 2, 3, 4],
    &[3, 4],
    &[0],
    &[0],
    &[0],
    &[],
];

#[derive(Default)]
pub struct Shares {
    numbers: [[u64; NUMBERS]; KINDS],
    states: [[u64; 9]; KINDS],
    /// Messages 7 that found a write.
    found: u64,
    /// Messages 1 that were checked to RETRY, with the stamp of a row that is prepared.
    at_prepared: u64,
    /// Messages 1 that were checked.
    checked: Checked,
}

fn kind_of(message: &[u8]) -> usize {
    match message.first() {
        None => 8,
        Some(kind @ 1..=7) => usize::from(*kind),
        Some(_) => 0,
    }
}

impl Shares {
    pub fn count(&mut self, message: &[u8], number: u8, reply: &[u8]) {
        let kind = kind_of(message);
        self.numbers[kind][usize::from(number)] += 1;
        if number == 0 {
            self.states[kind][usize::from(reply[3])] += 1;
            self.found += u64::from(kind == 7 && reply[8..16] != [0; 8]);
        }
    }

    /// What message 1 was answered with, if it was checked, and the table with its new row. The other rows are as they
    /// were then.
    pub fn count_checked(&mut self, reply: &[u8], held: &[u8]) {
        let stamp_at = |at: usize| {
            let bytes = reply[at..at + 8].try_into().expect("eight bytes");
            u64::from_be_bytes(bytes)
        };
        let (table, _) = Table::parse(held).expect("a table");
        let stamps = table.rows.keys().copied();
        self.checked.count(stamps, stamp_at(8), reply[3]);
        if reply[3] == RETRY {
            let row = table.rows.get(&stamp_at(16));
            self.at_prepared += u64::from(row.map_or(false, Row::is_prepared));
        }
    }

    pub fn add(&mut self, other: &Shares) {
        let numbers = self.numbers.iter_mut().zip(&other.numbers);
        numbers.for_each(|(here, there)| add_all(here, there));
        let states = self.states.iter_mut().zip(&other.states);
        states.for_each(|(here, there)| add_all(here, there));
        self.found += other.found;
        self.at_prepared += other.at_prepared;
        self.checked.add(&other.checked);
    }

    pub fn calls(&self) -> u64 {
        self.numbers.iter().flatten().sum()
    }

    /// That every number which a kind can be answered with was met at least so often, and no other was; likewise every
    /// state byte, RETRY with the stamp of a prepared row, and each result of a check wherever the stamp lies.
    pub fn assert_all_met(&self, least: u64) {
        for (kind, (name, possible)) in POSSIBLE.iter().enumerate() {
            assert_met(name, "number", &self.numbers[kind], possible, least);
            assert_met(name, "state", &self.states[kind], STATES[kind], least);
        }
        let missed = self.states[7][0] - self.found;
        assert!(self.found >= least && missed >= least, "message 7");
        let times = self.at_prepared;
        assert!(times >= least, "a prepared row's stamp: {} times", times);
        let missing = self.checked.missing(least);
        assert!(missing.is_empty(), "{:?}", missing);
    }
}

pub fn add_all(here: &mut [u64], there: &[u64]) {
    for (count, more) in here.iter_mut().zip(there) {
        *count += more;
    }
}

fn assert_met(name: &str, what: &str, counts: &[u64], possible: &[u8], least: u64) {
    for (which, count) in counts.iter().enumerate() {
        let right = if possible.contains(&(which as u8)) {
            *count >= least
        } else {
            *count == 0
        };
        assert!(right, "kind {}, {} {}: {} times", name, what, which, count);
    }
}

/// One of the counts, with its share of all of them.
pub fn percents(counts: &[u64], which: usize) -> String {
    let all: u64 = counts.iter().sum();
    match counts[which] {
        0 => String::new(),
        count => format!("{} {:5.1}%", count, 100.0 * count as f64 / all as f64),
    }
}

/// A column for each kind, a line for each number, then one for each state byte; then what the check said.
impl Display for Shares {
    fn fmt(&self, f: &mut Formatter) -> fmt::Result {
        write!(f, "kind     ")?;
        POSSIBLE
            .iter()
            .try_for_each(|(name, _)| write!(f, "{:>15}", name))?;
        for number in 0..NUMBERS - 1 {
            write!(f, "\nnumber {:2}", number)?;
            let mut kinds = self.numbers.iter();
            kinds.try_for_each(|counts| write!(f, "{:>15}", percents(counts, number)))?;
        }
        for state in 0..9 {
            write!(f, "\nstate {:3}", state)?;
            let mut kinds = self.states.iter();
            kinds.try_for_each(|counts| write!(f, "{:>15}", percents(counts, state)))?;
        }
        write!(
            f,
            "\n{} calls; message 7 found {}; message 1 was checked to RETRY with a prepared row's stamp {} times\n{}",
            self.calls(),
            self.found,
            self.at_prepared,
            self.checked
        )
    }
}
