//! Times of all sides, taken in turns.

use crate::{Side, Work};
use std::time::Instant;

/// What a work of one size takes.
pub struct Medians {
    /// How many bytes each side goes over.
    pub bytes: usize,
    /// Nanoseconds for the work once, in the middle of all rounds, of each side.
    pub nanoseconds: Vec<f64>,
    /// How many times as long as its shortest round the middle one took, of the side for which that is most. Where it is far
    /// above 1, something else ran on the machine, and the ratios are not to be trusted.
    pub spread: f64,
}

pub fn medians<W: Work>(sides: &[Side], size: usize, rounds: usize) -> Medians {
    let mut work = W::of(size);
    let times = W::times_a_round(size);
    let mut taken: Vec<Vec<f64>> = vec![Vec::with_capacity(rounds); sides.len()];
    for _ in 0..rounds {
        for (side, taken) in sides.iter().zip(&mut taken) {
            taken.push(nanoseconds(&mut work, *side, times));
        }
    }
    taken
        .iter_mut()
        .for_each(|times| times.sort_by(f64::total_cmp));
    let spreads = taken.iter().map(|times| median(times) / times[0]);
    Medians {
        bytes: work.bytes(),
        nanoseconds: taken.iter().map(|times| median(times)).collect(),
        spread: spreads.fold(1.0, f64::max),
    }
}

fn nanoseconds<W: Work>(work: &mut W, side: Side, times: usize) -> f64 {
    work.get_ready(times);
    let begun = Instant::now();
    work.done_by(side, times);
    let passed = begun.elapsed();
    work.assert_done(side);
    passed.as_nanos() as f64 / times as f64
}

/// The one in the middle of what is sorted.
fn median(sorted: &[f64]) -> f64 {
    sorted[sorted.len() / 2]
}
