//! `attack`: the library against the second program until the time is over or something differs.

use attack::fenced::{trespass, Trespass};
use attack::rounds::{attack, Ended, Plan};
use attack::{calls, Memory};
use std::sync::atomic::{AtomicU64, Ordering};
use std::time::{Duration, Instant};
use std::{env, process};

const USAGE: &str = "\
attack [--minutes M | --rounds N] [--from ROUND] [--threads T] [--allocated]
  --minutes M    goes on for so many minutes, ten if nothing is said
  --rounds N     plays so many rounds and no more
  --from ROUND   begins with this round, 1 if nothing is said; a round is the same whenever it is played
  --threads T    on so many threads, 1 if nothing is said
  --allocated    lends memory of just the needed length from the heap, with no fences, for a tool that watches allocations
attack [--allocated] --trespass read-before | read-behind | write-before | write-behind | write-what-is-read
                 goes a step too far on purpose: the machine has to end the program, or the tool that watches has to say so";

fn refuse(why: &str) -> ! {
    eprintln!("attack: {}\n\n{}", why, USAGE);
    process::exit(2);
}

fn number(word: Option<String>, what: &str) -> u64 {
    match word.as_deref().map(str::parse) {
        Some(Ok(number)) => number,
        _ => refuse(&format!("{} wants a whole number", what)),
    }
}

/// The plan that the words of the command line make.
fn plan() -> Plan {
    let mut plan = Plan {
        calls: calls::LIBRARY,
        memory: Memory::Fenced,
        from: 1,
        until: u64::MAX,
        most_time: Some(Duration::from_secs(600)),
        threads: 1,
    };
    let mut rounds = None;
    let mut words = env::args().skip(1);
    while let Some(word) = words.next() {
        match word.as_str() {
            "--minutes" => {
                plan.most_time = Some(Duration::from_secs(60 * number(words.next(), &word)))
            }
            "--rounds" => rounds = Some(number(words.next(), &word)),
            "--from" => plan.from = number(words.next(), &word),
            "--threads" => plan.threads = number(words.next(), &word).max(1) as usize,
            "--allocated" => plan.memory = Memory::Allocated,
            "--trespass" => go_too_far(plan.memory, words.next()),
            _ => refuse(&format!("no such word: {}", word)),
        }
    }
    if let Some(rounds) = rounds {
        plan.until = plan.from.saturating_add(rounds);
        plan.most_time = None;
    }
    plan
}

fn go_too_far(memory: Memory, how: Option<String>) -> ! {
    let how = match how.as_deref() {
        Some("read-before") => Trespass::ReadBefore,
        Some("read-behind") => Trespass::ReadBehind,
        Some("write-before") => Trespass::WriteBefore,
        Some("write-behind") => Trespass::WriteBehind,
        Some("write-what-is-read") => Trespass::WriteWhatIsRead,
        _ => refuse("--trespass wants one of its words"),
    };
    let found = trespass(memory, how);
    println!("nothing stopped it; the byte there is {}", found);
    process::exit(0);
}

/// Says now and then how far it is: if a fence stops the program, the round is not far behind the last one named.
fn watch(begun: Instant) -> impl Fn(u64) + Sync {
    let said = AtomicU64::new(0);
    move |round| {
        let now = begun.elapsed().as_secs() / 30;
        if said.swap(now, Ordering::Relaxed) != now {
            eprintln!("attack: round {} after {} s", round, 30 * now);
        }
    }
}

fn tell(ended: &Ended, seconds: f64) {
    println!("{}\n", ended.met);
    let calls = ended.met.calls();
    let speed = calls as f64 / seconds;
    println!(
        "{} rounds, {} calls in {:.0} s, {:.0} a second",
        ended.rounds, calls, seconds, speed
    );
}

fn main() {
    let begun = Instant::now();
    let plan = plan();
    let ended = attack(&plan, &watch(begun));
    tell(&ended, begun.elapsed().as_secs_f64());
    match &ended.found {
        None => println!("no difference"),
        Some(found) => {
            println!(
                "round {}, {}: {}",
                found.round, found.kind, found.difference
            );
            println!("to play it again: attack --from {} --rounds 1", found.round);
            process::exit(1);
        }
    }
}
