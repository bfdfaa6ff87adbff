//! `simulator [--seed S] [--histories N | --minutes M] [--n 3|5|7] [--rows R]`: plays random lawful histories on the
//! library and judges demand 3 in each, and the day's order and the room in each box. Every fourth history is one of boxes
//! with few rows, on the second program; with `--rows` all are, of so many rows. Ends with 0 if nothing was violated, with
//! 1 and the history in words if something was, with 2 if it was asked wrongly.

use simulator::law::Law;
use simulator::machine::{LIBRARY, SECOND};
use simulator::met::Met;
use simulator::run::{Models, Run, SMALL_ROWS};
use std::env;
use std::process::ExitCode;
use std::time::{Duration, Instant};

const USAGE: &str = "simulator [--seed S] [--histories N | --minutes M] [--n 3|5|7] [--rows 6..12]";
const USUAL_HISTORIES: u64 = 10_000;
/// Seeds that may be given, so that those after them are seeds too.
const GREATEST_SEED: u64 = 1 << 48;

/// What was asked for.
struct Asked {
    seed: u64,
    histories: Option<u64>,
    minutes: Option<u64>,
    n: Option<u8>,
    rows: Option<usize>,
}

fn main() -> ExitCode {
    let words: Vec<String> = env::args().skip(1).collect();
    match asked(&words) {
        Ok(asked) => simulate(&asked),
        Err(what) => {
            eprintln!("simulator: {}\nusage: {}", what, USAGE);
            ExitCode::from(2)
        }
    }
}

fn asked(words: &[String]) -> Result<Asked, String> {
    let mut asked = Asked {
        seed: 1,
        histories: None,
        minutes: None,
        n: None,
        rows: None,
    };
    for pair in words.chunks(2) {
        let value = pair
            .get(1)
            .ok_or(format!("there is nothing behind {}", pair[0]));
        match pair[0].as_str() {
            "--seed" => asked.seed = number(value?, 0, GREATEST_SEED)?,
            "--histories" => asked.histories = Some(number(value?, 1, GREATEST_SEED)?),
            "--minutes" => asked.minutes = Some(number(value?, 1, 100_000)?),
            "--n" => asked.n = Some(size(value?)?),
            "--rows" => asked.rows = Some(few_rows(value?)?),
            other => return Err(format!("{} is no word of mine", other)),
        }
    }
    match (asked.histories, asked.minutes) {
        (Some(_), Some(_)) => Err("either --histories or --minutes, not both".to_string()),
        _ => Ok(asked),
    }
}

fn number(word: &str, least: u64, most: u64) -> Result<u64, String> {
    let number = word
        .parse()
        .ok()
        .filter(|number| (least..=most).contains(number));
    number.ok_or(format!("{} is no number from {} to {}", word, least, most))
}

fn size(word: &str) -> Result<u8, String> {
    match word {
        "3" => Ok(3),
        "5" => Ok(5),
        "7" => Ok(7),
        _ => Err(format!("a group has 3, 5 or 7 boxes, not {}", word)),
    }
}

fn few_rows(word: &str) -> Result<usize, String> {
    let (least, most) = (*SMALL_ROWS.start() as u64, *SMALL_ROWS.end() as u64);
    number(word, least, most).map(|rows| rows as usize)
}

fn simulate(asked: &Asked) -> ExitCode {
    let (machine, models) = match asked.rows {
        Some(rows) => (SECOND, Models::OfRows(rows)),
        None => (LIBRARY, Models::EveryFourthSmall),
    };
    let run = Run {
        machine,
        law: Law::whole(),
        seed: asked.seed,
        n: asked.n,
        models,
    };
    let began = Instant::now();
    let time = asked
        .minutes
        .map(|minutes| Duration::from_secs(60 * minutes));
    let histories = asked.histories.unwrap_or(USUAL_HISTORIES);
    let mut met = Met::default();
    let played = run.play(&mut met, |played| match time {
        Some(time) => began.elapsed() < time,
        None => played < histories,
    });
    match played {
        Ok(played) => {
            let (events, merges) = (met.all("events"), met.all("merges judged"));
            let small = met.all("histories of small models");
            println!("{}", met);
            println!(
                "no violation in {} histories, {} of them of small models, {} events, {} merges judged",
                played, small, events, merges
            );
            ExitCode::SUCCESS
        }
        Err(found) => {
            println!("{}", found);
            ExitCode::FAILURE
        }
    }
}
