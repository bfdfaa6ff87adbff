//! The merge against the second program: number and output, to the byte, in more than a million calls.

mod buffers;
mod damaged;
mod histories;
mod large;
mod lent;
mod mixtures;
mod refusals;
mod shares;
mod started;
mod worked;
mod wrong;

use lent::Lent;
use shares::Shares;
use std::io::{self, Write};

/// So many calls at least, of all parts together.
const LEAST_CALLS: u64 = 1_000_000;
/// So often at least each number is given, and each thing done that a merge does.
const LEAST_OF_A_KIND: u64 = 100;

/// The parts, each with an output and dice of its own.
const PARTS: [fn(&mut Lent); 18] = [
    mixtures::many,
    mixtures::many,
    mixtures::many,
    histories,
    histories,
    refusals::all_sets,
    damaged::images,
    damaged::cut_and_followed,
    damaged::one_byte,
    damaged::too_many_rows,
    damaged::random_bytes,
    large::stamps_about_the_limit,
    large::all_checked,
    large::older_views,
    wrong::counts,
    wrong::boxes,
    wrong::views,
    buffers::lengths,
];

fn histories(lent: &mut Lent) {
    (0..6_000).for_each(|turn| histories::history(lent, 2 + turn % 9));
    // Otherwise hardly a box would go on in a new view.
    assert!(lent.shares.done() > lent.shares.calls() / 2);
}

/// All parts, side by side.
fn all_parts() -> Shares {
    let asked = |seed: u64, part: fn(&mut Lent)| {
        let mut lent = Lent::seeded(seed);
        part(&mut lent);
        lent.shares
    };
    samples::together(&PARTS, asked, Shares::add)
}

#[test]
fn a_million_merges_are_those_of_the_second_program() {
    let shares = all_parts();
    // Written past the test harness, which would keep it to itself: the shares are for whoever reads the gate's output.
    writeln!(io::stdout(), "\n{}", shares).expect("a place to print to");
    shares.assert_all_met(LEAST_OF_A_KIND);
    assert!(shares.calls() >= LEAST_CALLS, "{} calls", shares.calls());
}
