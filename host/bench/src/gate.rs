//! The gate's time, step by step and crate by crate, as a log of it has it: what `./test` printed, both of its outputs.
//!
//! `rt` proves crates side by side and says no times. So what is read is what the gate says of a step, `test: step 2 of 9: rt ci
//! took 9 min 3 s, ..`, and in it of a crate, `.. wire proved, 1 of 25 crates, 41 s` or `wire kept, ..`, and of an edit that must
//! fail, `.. wire/LABEL refused, ..`: the seconds behind a crate have gone by since the step began. cargo says which tests it runs,
//! and they say `test result: ok. .. finished in 3.54s`. If the shell's `time` stood before the gate, then `real 15m7.120s` is
//! there too.

use crate::refuse;
use crate::tables::{print_row, print_rule};
use std::fs;

/// What the log says of a crate that is proved, in the step that first tells of it.
#[derive(Debug, PartialEq)]
struct Proved {
    name: String,
    /// It was taken from an earlier run.
    kept: bool,
    /// So many seconds after the step had begun.
    after: u64,
    edits: u64,
}

/// What the log says of a crate of the host.
#[derive(Debug, PartialEq)]
struct Tested {
    name: String,
    passed: u64,
    seconds: f64,
}

/// All that a log says.
#[derive(Debug, Default)]
struct Gate<'a> {
    steps: Vec<(&'a str, u64)>,
    proved: Vec<Proved>,
    tested: Vec<Tested>,
    whole: Option<&'a str>,
}

/// What a line of the log tells, if it is one of these.
#[derive(Debug, PartialEq)]
enum Line<'a> {
    Step(&'a str, u64),
    Crate(&'a str, bool, u64),
    Edit(&'a str),
    Tests(&'a str),
    Passed(u64, f64),
    Whole(&'a str),
}

pub fn print(path: &str) {
    let bytes = fs::read(path).unwrap_or_else(|error| refuse(&format!("{}: {}", path, error)));
    let log = String::from_utf8_lossy(&bytes);
    let gate = read(&log);
    if gate.proved.is_empty() || log.contains("test: not passed") {
        refuse(&format!("{} is no log of a gate that passed", path));
    }
    print_steps(&gate.steps);
    println!();
    print_proved(&gate.proved);
    if !gate.tested.is_empty() {
        println!();
        print_tested(&gate.tested);
    }
    if let Some(whole) = gate.whole {
        println!("\nThe whole gate took {}.", whole);
    }
}

fn print_steps(steps: &[(&str, u64)]) {
    let headings = ["step", "it took, s"].map(String::from);
    print_row(&headings);
    print_rule(&headings);
    for (name, seconds) in steps {
        print_row(&[format!("`{}`", name), seconds.to_string()]);
    }
    let seconds: u64 = steps.iter().map(|(_, seconds)| seconds).sum();
    print_row(&["all".into(), seconds.to_string()]);
}

fn print_proved(crates: &[Proved]) {
    let headings = ["crate", "proved after, s", "edits"].map(String::from);
    print_row(&headings);
    print_rule(&headings);
    for of in crates {
        let after = match of.kept {
            true => "kept".to_string(),
            false => of.after.to_string(),
        };
        print_row(&[format!("`{}`", of.name), after, of.edits.to_string()]);
    }
    let last = crates.iter().map(|of| of.after).max().unwrap_or(0);
    let edits: u64 = crates.iter().map(|of| of.edits).sum();
    print_row(&["all".into(), last.to_string(), edits.to_string()]);
}

fn print_tested(crates: &[Tested]) {
    let headings = ["host crate", "tests", "they ran, s"].map(String::from);
    print_row(&headings);
    print_rule(&headings);
    let row = |name: &str, passed: u64, seconds: f64| {
        print_row(&[name.into(), passed.to_string(), format!("{:.1}", seconds)]);
    };
    for of in crates {
        row(&format!("`host/{}`", of.name), of.passed, of.seconds);
    }
    let passed = crates.iter().map(|of| of.passed).sum();
    row("all", passed, crates.iter().map(|of| of.seconds).sum());
}

/// What the log says, with its crates in its order.
fn read(log: &str) -> Gate<'_> {
    let mut gate = Gate::default();
    log.lines()
        .filter_map(told)
        .for_each(|line| gate.hear(line));
    gate.tested.retain(|of| of.passed > 0);
    gate
}

impl<'a> Gate<'a> {
    fn hear(&mut self, line: Line<'a>) {
        match line {
            Line::Step(name, seconds) => self.steps.push((name, seconds)),
            // Later steps build some crates again, or take them as they are.
            Line::Crate(name, kept, after) => {
                if self.proved.iter().all(|of| of.name != name) {
                    self.proved.push(Proved {
                        name: name.into(),
                        kept,
                        after,
                        edits: 0,
                    });
                }
            }
            Line::Edit(name) => {
                let of = self.proved.iter_mut().find(|of| of.name == name);
                of.into_iter().for_each(|of| of.edits += 1);
            }
            Line::Tests(name) => begin(&mut self.tested, name),
            Line::Passed(passed, seconds) => {
                if let Some(of) = self.tested.last_mut() {
                    of.passed += passed;
                    of.seconds += seconds;
                }
            }
            Line::Whole(time) => self.whole = Some(time),
        }
    }
}

/// Tests of this crate come next. They may be some more of the one before.
fn begin(crates: &mut Vec<Tested>, name: &str) {
    if crates.last().map_or(true, |of| of.name != name) {
        crates.push(Tested {
            name: name.into(),
            passed: 0,
            seconds: 0.0,
        });
    }
}

/// What a line tells. Something may stand before it, as the time of day.
fn told(line: &str) -> Option<Line<'_>> {
    let words: Vec<&str> = line.split_whitespace().collect();
    if let ["real", time] = words[..] {
        return Some(Line::Whole(time));
    }
    let from = |first: &str| words.iter().position(|word| *word == first);
    if let Some((_, said)) = line.split_once("test: step ") {
        return told_by_gate(said.split_once(": ")?.1);
    }
    if let Some(place) = from("Running") {
        return told_by_cargo(&words[place + 1..]);
    }
    let result = from("result:")?;
    told_by_tests(&words[result + 1..])
}

/// What the gate says behind the number of a step.
fn told_by_gate(said: &str) -> Option<Line<'_>> {
    let (what, rest) = said.split_once(", ").unwrap_or((said, ""));
    if let Some((name, time)) = what.split_once(" took ") {
        return Some(Line::Step(name, seconds(time)?));
    }
    let (name, ended) = what.rsplit_once(' ')?;
    match (ended, rest.rsplit_once(", ")) {
        ("refused", _) => Some(Line::Edit(name.split_once('/')?.0)),
        ("proved", Some((_, time))) => Some(Line::Crate(name, false, seconds(time)?)),
        ("kept", Some((_, time))) => Some(Line::Crate(name, true, seconds(time)?)),
        _ => None,
    }
}

/// `41 s` and `9 min 3 s` in seconds.
fn seconds(time: &str) -> Option<u64> {
    match time.split(' ').collect::<Vec<&str>>()[..] {
        [seconds, "s"] => seconds.parse().ok(),
        [minutes, "min", seconds, "s"] => {
            Some(60 * minutes.parse::<u64>().ok()? + seconds.parse::<u64>().ok()?)
        }
        _ => None,
    }
}

/// The tests within a crate's own sources come first, and are named after it; those beside them follow.
fn told_by_cargo<'a>(words: &[&'a str]) -> Option<Line<'a>> {
    match words {
        ["unittests", _, program] => {
            let name = program.rsplit('/').next()?;
            Some(Line::Tests(name.rsplit_once('-')?.0))
        }
        _ => None,
    }
}

fn told_by_tests<'a>(words: &[&str]) -> Option<Line<'a>> {
    match words {
        ["ok.", passed, "passed;", .., "in", seconds] => Some(Line::Passed(
            passed.parse().ok()?,
            seconds.trim_end_matches('s').parse().ok()?,
        )),
        _ => None,
    }
}

#[cfg(test)]
mod tests {
    use super::{read, told, Line, Proved, Tested};

    const LOG: &str = "\
test: step 2 of 9: rt ci, every proof and every must-fail edit
== wire
fn wire::u32_at: proved
logic=proved functions=9 sum=064da1ca440f63e7 native=nat,char,string
rt: wire proved
test: step 2 of 9: wire proved, 1 of 4 crates, 9 s
rt: rules is kept: an earlier run on this machine proved the same files over the same libraries
test: step 2 of 9: rules kept, 2 of 4 crates, 9 s
09:13:02 test: step 2 of 9: rows proved, 3 of 4 crates, 1 min 22 s
rt: must-fail rows/five_writes_taken.edit: refused, as it must be: note: src/body.rs:6:1: it is not proved
test: step 2 of 9: rows/five_writes_taken refused, 1 of 3 edits, 2 min 0 s
test: step 2 of 9: rows/stamp_of_49_bits refused, 2 of 3 edits, 2 min 0 s
test: step 2 of 9: wire/other NOT REFUSED, 3 of 3 edits, 2 min 0 s
rt: ok; handles allowed: none; must-fail edits: 2 refused
test: step 2 of 9: rt ci took 2 min 1 s, 4 crates, 3 edits
test: step 4 of 9: tools/library sprondilu, the library that the host tests l..
test: step 4 of 9: wire proved, 1 of 2 crates, 5 s
test: step 4 of 9: tools/library sprondilu took 48 s, 2 crates
   Compiling bench v0.1.0 (/somewhere/host/bench)
     Running unittests src/lib.rs (target/host/release/deps/boundary-2e12607addee7163)
test result: ok. 0 passed; 0 failed; 0 ignored; 0 measured; 0 filtered out; finished in 0.00s
     Running tests/long.rs (target/host/release/deps/long-2e12607addee7163)
test result: ok. 2 passed; 0 failed; 0 ignored; 0 measured; 0 filtered out; finished in 3.54s
     Running tests/marked.rs (target/host/release/deps/marked-2e12607addee7163)
test result: ok. 5 passed; 0 failed; 0 ignored; 0 measured; 0 filtered out; finished in 0.25s
     Running unittests src/main.rs (target/host/release/deps/bench-2e12607addee7163)
test result: ok. 12 passed; 0 failed; 0 ignored; 0 measured; 0 filtered out; finished in 3.50s
150 passed, 0 failed

real\t15m7.120s
";

    fn proved(name: &str, kept: bool, after: u64, edits: u64) -> Proved {
        Proved {
            name: name.into(),
            kept,
            after,
            edits,
        }
    }

    fn tested(name: &str, passed: u64, seconds: f64) -> Tested {
        Tested {
            name: name.into(),
            passed,
            seconds,
        }
    }

    #[test]
    fn a_log_is_read_crate_by_crate() {
        let gate = read(LOG);
        let expected = [
            proved("wire", false, 9, 0),
            proved("rules", true, 9, 0),
            proved("rows", false, 82, 2),
        ];
        assert_eq!(gate.proved, expected);
        let expected = [("rt ci", 121), ("tools/library sprondilu", 48)];
        assert_eq!(gate.steps, expected);
        let expected = [tested("boundary", 7, 3.79), tested("bench", 12, 3.5)];
        assert_eq!(gate.tested, expected);
        assert_eq!(gate.whole, Some("15m7.120s"));
    }

    #[test]
    fn other_lines_tell_nothing() {
        for line in [
            "",
            "rt:",
            "note: proved",
            "rt: rows NOT PROVED",
            "test: step 2 of 9: rows NOT PROVED, 1 of 4 crates, 5 s",
            "test: step 3 of 9: tools/assumptions after the checks: no proof leans on what..",
            "test: step 7 of 9: host/bench tested, 2 of 12 crates, 3 s",
            "test: step 2 of 9: rt ci took a while",
        ] {
            assert_eq!(told(line), None, "{}", line);
        }
        assert_eq!(
            told("test: step 2 of 9: rows proved, 1 of 25 crates, 1 s"),
            Some(Line::Crate("rows", false, 1))
        );
        assert_eq!(
            told("test: step 2 of 9: rows/five refused, 1 of 72 edits, 1 s"),
            Some(Line::Edit("rows"))
        );
    }
}
