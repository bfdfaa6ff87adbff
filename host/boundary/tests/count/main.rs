//! The coordinator's count against the second program, every bit of the answer: all small lists, and random ones beyond.
//! Each list of whole replies is counted from its bytes and from records.

mod damaged;
mod every;
mod heard;
mod in_order;
mod large;
mod lent;
mod mixtures;
mod records;
mod refusals;
mod shares;
mod worked;

use lent::Lent;
use shares::Shares;
use std::io::{self, Write};

/// So many calls at least, of all parts together.
const LEAST_CALLS: u64 = 12_000_000;
/// And so many with records.
const LEAST_WITH_RECORDS: u64 = 14_000_000;
/// So often at least each answer is given, for each of its reasons and in each group.
const LEAST_OF_A_KIND: u64 = 100;

/// The parts, each with dice of its own: eleven in which every list is asked for, and random ones.
const PARTS: [fn(&mut Lent); 24] = [
    every::few_of_each::<3>,
    every::few_of_each::<5>,
    every::few_of_each::<7>,
    every::few_of_each_for_a_bad_n,
    every::boxes_and_views,
    every::boxes_and_results,
    every::results,
    every::all_at_once,
    in_order::up_to_five,
    in_order::six,
    in_order::seven,
    mixtures::many,
    mixtures::many,
    mixtures::with_more,
    damaged::fields,
    damaged::results,
    damaged::cut_and_followed,
    damaged::one_byte,
    damaged::random_bytes,
    refusals::all_sets,
    large::lengths,
    heard::groups,
    large::every_length,
    records::padding,
];

/// All parts, side by side.
fn all_parts() -> Shares {
    let asked = |seed: u64, part: fn(&mut Lent)| {
        let mut lent = Lent::seeded(seed);
        part(&mut lent);
        lent.shares
    };
    samples::together(&PARTS, asked, Shares::add)
}

#[test]
fn every_small_list_and_many_others_are_counted_as_by_the_second_program() {
    let shares = all_parts();
    // Written past the test harness, which would keep it to itself: the shares are for whoever reads the gate's output.
    writeln!(io::stdout(), "\n{}", shares).expect("a place to print to");
    shares.assert_all_met(LEAST_OF_A_KIND);
    assert!(shares.calls() >= LEAST_CALLS, "{} calls", shares.calls());
    let with_records = shares.as_records;
    assert!(with_records >= LEAST_WITH_RECORDS, "{} calls", with_records);
}
