//! Rounds one after the other, on as many threads as are asked for, until their number or the time is reached.

use crate::both::{Both, Difference};
use crate::calls::Calls;
use crate::fenced::Memory;
use crate::inputs::KINDS;
use crate::met::Met;
use samples::Dice;
use std::sync::atomic::{AtomicBool, AtomicU64, Ordering};
use std::thread;
use std::time::{Duration, Instant};

/// What is attacked, and for how long.
#[derive(Clone, Copy)]
pub struct Plan {
    pub calls: Calls,
    pub memory: Memory,
    /// The first round, and the one that is not played any more.
    pub from: u64,
    pub until: u64,
    pub most_time: Option<Duration>,
    pub threads: usize,
}

/// The round in which both programs differed.
#[derive(Clone, Debug, PartialEq, Eq)]
pub struct Found {
    pub round: u64,
    pub kind: &'static str,
    pub difference: Difference,
}

/// What came of an attack.
#[derive(Clone, Debug, Default, PartialEq, Eq)]
pub struct Ended {
    pub rounds: u64,
    pub met: Met,
    pub found: Option<Found>,
}

/// One round, which its number gives.
fn play(both: &mut Both, round: u64) -> Option<Found> {
    let (kind, turn) = KINDS[(round % KINDS.len() as u64) as usize];
    let mut dice = Dice::seeded(round);
    let difference = turn(both, &mut dice).err()?;
    Some(Found {
        round,
        kind,
        difference,
    })
}

/// The rounds that all threads share.
struct Shared {
    next: AtomicU64,
    stop: AtomicBool,
    begun: Instant,
}

impl Shared {
    /// The next round of a plan, if there is one and there is time.
    fn take(&self, plan: &Plan) -> Option<u64> {
        let in_time = plan
            .most_time
            .map_or(true, |most| self.begun.elapsed() < most);
        if !in_time || self.stop.load(Ordering::Relaxed) {
            return None;
        }
        let round = self.next.fetch_add(1, Ordering::Relaxed);
        (round < plan.until).then_some(round)
    }
}

/// Rounds as one thread plays them, each told to whoever watches.
fn played(plan: &Plan, shared: &Shared, watch: &(dyn Fn(u64) + Sync)) -> Ended {
    let mut both = Both::new(plan.calls, plan.memory);
    let mut ended = Ended::default();
    while let Some(round) = shared.take(plan) {
        watch(round);
        ended.rounds += 1;
        if let Some(found) = play(&mut both, round) {
            shared.stop.store(true, Ordering::Relaxed);
            ended.found = Some(found);
        }
    }
    ended.met = both.met;
    ended
}

/// All rounds of a plan, or those until the first difference.
pub fn attack(plan: &Plan, watch: &(dyn Fn(u64) + Sync)) -> Ended {
    let shared = Shared {
        next: AtomicU64::new(plan.from),
        stop: AtomicBool::new(false),
        begun: Instant::now(),
    };
    let shared = &shared;
    let all_ended: Vec<Ended> = thread::scope(|scope| {
        let one = |_| scope.spawn(move || played(plan, shared, watch));
        let running: Vec<_> = (0..plan.threads).map(one).collect();
        let ended = running.into_iter().map(|thread| thread.join());
        ended
            .map(|ended| ended.expect("a thread that ends"))
            .collect()
    });
    let mut all = Ended::default();
    for one in all_ended {
        all.rounds += one.rounds;
        all.met.add(&one.met);
        all.found = all.found.or(one.found);
    }
    all
}
