//! How often each number was given, and what the merges that were done did, so that no comparison holds for want of a
//! case.

use reference::{proposal_check, PrepareResult, Row, Rows, Table};
use std::collections::BTreeMap;
use std::fmt::{self, Display, Formatter};

/// The numbers that the paper has for a merge.
const POSSIBLE: [usize; 7] = [0, 1, 2, 5, 6, 7, 11];
const NUMBERS: usize = 12;

/// The ways in which the row of a stamp is settled.
const WAYS: [&str; 14] = [
    "final result stays",
    "agreed refusal stays",
    "agreed OK with an outcome stays",
    "agreed OK checked to OK",
    "agreed OK checked to ABORT",
    "agreed OK checked to ABSTAIN",
    "agreed OK checked to RETRY",
    "open with commit",
    "open with abort",
    "open checked to OK",
    "open checked to ABORT",
    "open checked to ABSTAIN",
    "open checked to RETRY",
    "outcome without prepare",
];
const AGREED_CHECKED: usize = 3;
const OPEN_CHECKED: usize = 9;
/// How far behind these RETRY stands.
const TO_RETRY: usize = 3;

/// Of merges, and not of rows.
const MERGES: [&str; 6] = [
    "of no rows",
    "of 512 rows",
    "with tables of older views",
    "with fewer used tables than the agreement count",
    "with a check to RETRY at a prepared row's stamp",
    "with a check to OK where a box would refuse",
];

#[derive(Default)]
pub struct Shares {
    numbers: [u64; NUMBERS],
    ways: [u64; WAYS.len()],
    merges: [u64; MERGES.len()],
}

/// What the used tables hold of one stamp.
#[derive(Default)]
struct Held {
    is_final: bool,
    /// Codes and retry stamps.
    tentative: Vec<(u8, u64)>,
    commit: bool,
    abort: bool,
}

fn number_at(bytes: &[u8], at: usize) -> usize {
    u32::from_be_bytes(bytes[at..at + 4].try_into().expect("four bytes")) as usize
}

fn stamp_at(row: &[u8], at: usize) -> u64 {
    u64::from_be_bytes(row[at..at + 8].try_into().expect("eight bytes"))
}

/// The images of a run that a merge was made of.
fn images(mut run: &[u8]) -> Vec<&[u8]> {
    let mut images = Vec::new();
    while !run.is_empty() {
        let (image, rest) = run.split_at(number_at(run, 20));
        images.push(image);
        run = rest;
    }
    images
}

/// The rows of an image, 24 bytes each.
fn rows(image: &[u8]) -> impl Iterator<Item = &[u8]> {
    let rows = number_at(image, 4);
    image[24..].chunks_exact(24).take(rows)
}

fn held(used: &[&[u8]]) -> BTreeMap<u64, Held> {
    let mut stamps: BTreeMap<u64, Held> = BTreeMap::new();
    for row in used.iter().flat_map(|image| rows(image)) {
        let held = stamps.entry(stamp_at(row, 0)).or_default();
        match row[22] {
            0 => {}
            code @ 1..=4 => held.tentative.push((code, stamp_at(row, 8))),
            _ => held.is_final = true,
        }
        held.commit |= matches!(row[23], 1 | 3);
        held.abort |= matches!(row[23], 2 | 4);
    }
    stamps
}

/// The way in which a stamp was settled, as its row in the output has it.
fn way(held: &Held, agreement: usize, merged: &[u8]) -> usize {
    let times = |result: &(u8, u64)| {
        held.tentative
            .iter()
            .filter(|other| *other == result)
            .count()
    };
    let mut results = held.tentative.iter();
    let agreed = results.find(|result| times(result) >= agreement);
    let checked_to = usize::from(merged[22].saturating_sub(5));
    match agreed.map(|(code, _)| code) {
        _ if held.is_final => 0,
        _ if held.tentative.is_empty() => 13,
        Some(2..) => 1,
        Some(_) if held.commit || held.abort => 2,
        Some(_) => AGREED_CHECKED + checked_to,
        None if held.commit => 7,
        None if held.abort => 8,
        None => OPEN_CHECKED + checked_to,
    }
}

/// Whether one of these stamps is that of a row which is prepared in a merged table.
fn some_are_prepared(stamps: &[u64], merged: &Rows) -> bool {
    let mut rows = stamps.iter().filter_map(|stamp| merged.get(stamp));
    rows.any(Row::is_prepared)
}

/// Whether one of these stamps is that of a row which the check for messages 1 refuses for a committed one. Those are
/// settled before any check of a merge.
fn some_are_slipped_in(stamps: &[u64], merged: &Rows) -> bool {
    let committed = merged.iter().filter(|(_, row)| row.is_committed());
    let committed: Rows = committed
        .map(|(stamp, row)| (*stamp, row.clone()))
        .collect();
    let mut entries = stamps.iter().map(|stamp| (*stamp, &merged[stamp].body));
    entries.any(|(stamp, body)| proposal_check(&committed, stamp, body) != PrepareResult::Ok)
}

impl Shares {
    /// A run that was given this number, and the merged image, if there is one.
    pub fn count(&mut self, run: &[u8], number: u8, merged: &[u8]) {
        self.numbers[usize::from(number)] += 1;
        if number == 0 {
            self.count_done(&images(run), merged);
        }
    }

    fn count_done(&mut self, images: &[&[u8]], merged: &[u8]) {
        let newest = images.iter().map(|image| number_at(image, 8)).max();
        let is_used = |image: &&&[u8]| Some(number_at(image, 8)) == newest;
        let used: Vec<&[u8]> = images.iter().filter(is_used).copied().collect();
        // "Agreement count: f half, rounded up, plus one", and f+1 tables are there.
        let agreement = images.len() / 2 + 1;
        let stamps = held(&used);
        let (mut passed, mut retries) = (Vec::new(), Vec::new());
        for row in rows(merged) {
            let way = way(&stamps[&stamp_at(row, 0)], agreement, row);
            self.ways[way] += 1;
            if [AGREED_CHECKED, OPEN_CHECKED].contains(&way) {
                passed.push(stamp_at(row, 0));
            }
            if [AGREED_CHECKED + TO_RETRY, OPEN_CHECKED + TO_RETRY].contains(&way) {
                retries.push(stamp_at(row, 8));
            }
        }
        let (table, _) = Table::parse(merged).expect("a merged table");
        let merges = [
            stamps.is_empty(),
            stamps.len() == 512,
            used.len() < images.len(),
            used.len() < agreement,
            some_are_prepared(&retries, &table.rows),
            some_are_slipped_in(&passed, &table.rows),
        ];
        for (count, is_such) in self.merges.iter_mut().zip(merges) {
            *count += u64::from(is_such);
        }
    }

    pub fn add(&mut self, other: &Shares) {
        add_all(&mut self.numbers, &other.numbers);
        add_all(&mut self.ways, &other.ways);
        add_all(&mut self.merges, &other.merges);
    }

    pub fn calls(&self) -> u64 {
        self.numbers.iter().sum()
    }

    pub fn done(&self) -> u64 {
        self.numbers[0]
    }

    /// That every number which a merge can be given was met at least so often, and no other was; likewise every way to
    /// settle a row, and every kind of merge.
    pub fn assert_all_met(&self, least: u64) {
        for (number, count) in self.numbers.iter().enumerate() {
            let right = if POSSIBLE.contains(&number) {
                *count >= least
            } else {
                *count == 0
            };
            assert!(right, "number {}: {} times", number, count);
        }
        let names = WAYS.iter().chain(&MERGES);
        for (name, count) in names.zip(self.ways.iter().chain(&self.merges)) {
            assert!(*count >= least, "{}: {} times", name, count);
        }
    }
}

fn add_all(here: &mut [u64], there: &[u64]) {
    for (count, more) in here.iter_mut().zip(there) {
        *count += more;
    }
}

/// A line for each number, for each way to settle a row, and for each kind of merge.
impl Display for Shares {
    fn fmt(&self, f: &mut Formatter) -> fmt::Result {
        let percent = |count: u64, all: u64| 100.0 * count as f64 / all.max(1) as f64;
        writeln!(f, "merge: {} calls", self.calls())?;
        for number in POSSIBLE {
            let count = self.numbers[number];
            let share = percent(count, self.calls());
            writeln!(f, "number {:2} {:>9} {:5.1}%", number, count, share)?;
        }
        let all = self.ways.iter().sum();
        writeln!(f, "{} rows of merges that were done", all)?;
        for (name, count) in WAYS.iter().zip(self.ways) {
            writeln!(f, "{:47} {:>9} {:5.1}%", name, count, percent(count, all))?;
        }
        writeln!(f, "{} merges that were done", self.done())?;
        for (name, count) in MERGES.iter().zip(self.merges) {
            let share = percent(count, self.done());
            writeln!(f, "{:47} {:>9} {:5.1}%", name, count, share)?;
        }
        Ok(())
    }
}
