//! Both checks over random tables: what each says of entries below, between and above the stamps that are held, and what
//! holds of the check for messages 1 whatever the table is. The numbers are drawn from fixed seeds, so every run is the
//! same.

mod common;
use common::dice::Dice;
use reference::{
    check, proposal_check, Body, HeldOutcome, HeldPrepare, Outcome, PrepareResult, Row, Rows,
};
use std::collections::BTreeMap;
use std::io::{self, Write};

/// So many entries are asked about, each beside rows of its own.
const ENTRIES: u64 = 200_000;
/// So many of them at least get each result that is possible.
const LEAST: u64 = 1_000;
/// Rows stand at even stamps, and entries at odd ones, which no row has.
const ROWS: u64 = 6;

/// Some of three registers, each with a number.
fn accesses(dice: &mut Dice, number: impl Fn(&mut Dice) -> u64) -> BTreeMap<u8, u64> {
    let mut accesses = BTreeMap::new();
    for register in [0, 1, 63] {
        if dice.in_a_hundred(25) {
            accesses.insert(register, number(dice));
        }
    }
    accesses
}

/// A body at a stamp. Versions are often stamps of rows: then it matters whether an inequality is strict.
fn body(dice: &mut Dice, stamp: u64) -> Body {
    let version = |dice: &mut Dice| {
        let version = dice.below(stamp);
        version - version % (1 + dice.below(2))
    };
    let reads = accesses(dice, version);
    let mut writes = accesses(dice, |dice| dice.below(100));
    if reads.is_empty() && writes.is_empty() {
        writes.insert(dice.below(2) as u8, 7);
    }
    Body { reads, writes }
}

/// A row in any state. About a third of them are committed, and about a third prepared.
fn row(dice: &mut Dice, stamp: u64) -> Row {
    let result = match dice.below(8) {
        0 => PrepareResult::Abort,
        1 => PrepareResult::Retry(99),
        _ => PrepareResult::Ok,
    };
    let prepare = HeldPrepare {
        result,
        is_final: dice.in_a_hundred(50),
    };
    let outcome = match dice.below(6) {
        0 => Some(HeldOutcome::noted(Outcome::Abort)),
        1 => Some(HeldOutcome::done(Outcome::Abort)),
        2 | 3 => Some(HeldOutcome::done(Outcome::Commit)),
        _ => None,
    };
    Row {
        body: body(dice, stamp),
        prepare: Some(prepare),
        outcome,
    }
}

fn rows(dice: &mut Dice) -> Rows {
    let stamps = (2..=ROWS + 1).map(|place| 2 * place);
    let held: Vec<u64> = stamps.filter(|_| dice.in_a_hundred(45)).collect();
    held.iter()
        .map(|stamp| (*stamp, row(dice, *stamp)))
        .collect()
}

/// An entry beside the rows of a table.
struct Entry {
    rows: Rows,
    stamp: u64,
    body: Body,
}

impl Entry {
    fn any(dice: &mut Dice) -> Entry {
        let rows = rows(dice);
        let stamp = 1 + 2 * dice.below(ROWS + 3);
        let body = body(dice, stamp);
        Entry { rows, stamp, body }
    }

    fn proposed_at(&self, stamp: u64) -> PrepareResult {
        proposal_check(&self.rows, stamp, &self.body)
    }

    fn accepted(&self) -> impl Iterator<Item = (&u64, &Row)> {
        let mut rows = self.rows.iter().collect::<Vec<_>>();
        rows.retain(|(_, row)| row.is_committed() || row.is_prepared());
        rows.into_iter()
    }

    /// Whether a row has a register in common with the entry that one of the two writes.
    fn meets(&self, row: &Row) -> bool {
        let (own, other) = (&self.body, &row.body);
        let is_accessed = |k: &u8| other.reads.contains_key(k) || other.writes.contains_key(k);
        own.writes.keys().any(is_accessed) || own.reads.keys().any(|k| other.writes.contains_key(k))
    }

    /// Whether the row at w writes something that the entry read at an earlier version.
    fn is_outdated_by(&self, (w, row): (&u64, &Row)) -> bool {
        let mut writes = row.body.writes.keys();
        writes.any(|k| self.body.reads.get(k).map_or(false, |v| v < w))
    }

    /// Where its stamp lies among those that are held, if any are.
    fn place(&self) -> Option<usize> {
        let (least, greatest) = (self.rows.keys().next()?, self.rows.keys().last()?);
        match self.stamp {
            stamp if stamp < *least => Some(0),
            stamp if stamp > *greatest => Some(2),
            _ => Some(1),
        }
    }
}

const PLACES: [&str; 3] = ["below all", "between", "above all"];
const RESULTS: [&str; 4] = ["OK", "ABORT", "ABSTAIN", "RETRY"];

/// How often entries got each result at each place.
type Shares = [[u64; 4]; 3];

fn print(name: &str, shares: &Shares) -> io::Result<()> {
    // Written past the test harness, which would keep it to itself: the shares are for whoever reads the gate's output.
    let mut out = io::stdout();
    for (place, counts) in PLACES.iter().zip(shares) {
        let all: u64 = counts.iter().sum();
        write!(out, "\n{:16} {:9} {:6} entries:", name, place, all)?;
        for (result, count) in RESULTS.iter().zip(counts) {
            let share = 100.0 * *count as f64 / all as f64;
            write!(out, " {} {} {:.1}%", result, count, share)?;
        }
    }
    writeln!(out)
}

/// That each result was met that is possible at a place, and no other was.
fn assert_met(name: &str, shares: &Shares, impossible: &[(usize, usize)]) {
    for (place, counts) in shares.iter().enumerate() {
        for (result, count) in counts.iter().enumerate() {
            let right = match impossible.contains(&(place, result)) {
                true => *count == 0,
                false => *count >= LEAST,
            };
            let which = (PLACES[place], RESULTS[result]);
            assert!(right, "{}: {:?}: {} times", name, which, count);
        }
    }
}

/// Above all rows there is none for B. Below all of them the older A has no write between a version and the stamp, and the
/// new one has.
#[test]
fn each_result_is_met_wherever_the_stamp_lies() {
    let mut dice = Dice(0x5eed);
    let (mut proposals, mut merges) = (Shares::default(), Shares::default());
    for _ in 0..ENTRIES {
        let entry = Entry::any(&mut dice);
        if let Some(place) = entry.place() {
            let proposed = entry.proposed_at(entry.stamp);
            let merged = check(&entry.rows, entry.stamp, &entry.body);
            proposals[place][usize::from(proposed.code() - 1)] += 1;
            merges[place][usize::from(merged.code() - 1)] += 1;
        }
    }
    print("messages 1", &proposals).expect("a place to print to");
    print("the merge's", &merges).expect("a place to print to");
    assert_met("messages 1", &proposals, &[(2, 3)]);
    assert_met("the merge's", &merges, &[(0, 1), (2, 3)]);
}

/// "no entry may be slipped under one already accepted": after OK whatever meets the entry lies below it, and what it read
/// is the newest.
#[test]
fn an_entry_that_gets_ok_follows_the_days_order() {
    let mut dice = Dice(0xda1);
    let mut passed = 0;
    for _ in 0..ENTRIES {
        let entry = Entry::any(&mut dice);
        if entry.proposed_at(entry.stamp) != PrepareResult::Ok {
            continue;
        }
        passed += 1;
        for (stamp, row) in entry.accepted() {
            assert!(!entry.meets(row) || *stamp < entry.stamp);
            assert!(!entry.is_outdated_by((stamp, row)));
        }
    }
    assert!(passed >= LEAST, "only {} passed", passed);
}

#[test]
fn ok_stays_ok_at_every_later_stamp() {
    let mut dice = Dice(0x0dd);
    let mut later = 0;
    for _ in 0..ENTRIES {
        let entry = Entry::any(&mut dice);
        if entry.proposed_at(entry.stamp) == PrepareResult::Ok {
            for stamp in (entry.stamp..2 * ROWS + 9).step_by(2).skip(1) {
                assert_eq!(entry.proposed_at(stamp), PrepareResult::Ok);
                later += 1;
            }
        }
    }
    assert!(later >= LEAST, "only {} later stamps", later);
}

/// At stamps above that of RETRY nothing is in the way of what is written. What is left is a prepared write above a version
/// that was read, which is C's.
#[test]
fn above_the_stamp_of_retry_no_row_is_in_the_way() {
    let mut dice = Dice(0xbea7);
    let mut met = [0; 2];
    for _ in 0..ENTRIES {
        let entry = Entry::any(&mut dice);
        let advice = match entry.proposed_at(entry.stamp) {
            PrepareResult::Retry(advice) => advice,
            _ => continue,
        };
        let is_outdated = entry.accepted().any(|held| entry.is_outdated_by(held));
        let expected = match is_outdated {
            true => PrepareResult::Abstain,
            false => PrepareResult::Ok,
        };
        for stamp in (advice + 1..2 * ROWS + 9).step_by(2) {
            assert_eq!(entry.proposed_at(stamp), expected);
            met[usize::from(is_outdated)] += 1;
        }
        // And it is the least such stamp: a row stands there that is in the way.
        assert_ne!(entry.proposed_at(advice - 1), PrepareResult::Ok);
    }
    assert!(met.iter().all(|times| *times >= LEAST), "{:?}", met);
}

/// What the check for messages 1 lets pass, the merge's lets pass, and not the other way round.
#[test]
fn the_check_for_messages_1_is_the_stricter_one() {
    let mut dice = Dice(0x57a1);
    let (mut both, mut one) = (0, 0);
    for _ in 0..ENTRIES {
        let entry = Entry::any(&mut dice);
        let in_a_merge = check(&entry.rows, entry.stamp, &entry.body);
        match (entry.proposed_at(entry.stamp), in_a_merge) {
            (PrepareResult::Ok, merged) => {
                assert_eq!(merged, PrepareResult::Ok);
                both += 1;
            }
            (_, PrepareResult::Ok) => one += 1,
            _ => {}
        }
    }
    assert!(both >= LEAST && one >= LEAST, "{} and {}", both, one);
}
