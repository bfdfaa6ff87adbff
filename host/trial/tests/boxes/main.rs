//! The stepping of a group in one lent buffer, by the library as by the second program: the number, and every byte that is
//! lent or lies around what is.

mod arrivals;
mod calls;
mod lent;
mod merges;
mod messages;
mod met;
mod second;
mod start;
mod worked;

use calls::Calls;
use met::Met;

/// Groups of 3, 5 and 7, side by side, each with buffers, dice and a tally of its own; in all so many calls at least.
fn in_every_group(asked: fn(&mut Calls, &mut Met, u8), least_calls: u64) -> Met {
    let of_group = |seed: u64, n: u8| {
        let mut calls = Calls::seeded(seed);
        let mut met = Met::default();
        asked(&mut calls, &mut met, n);
        (calls.compared, met)
    };
    let mut all = Met::default();
    let mut compared = 0;
    for (calls, met) in samples::side_by_side(&[3, 5, 7], of_group) {
        compared += calls;
        all.add(&met);
    }
    assert!(compared >= least_calls, "only {} calls", compared);
    all
}
