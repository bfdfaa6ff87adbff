//! The proved library beside its twin in plain safe Rust, beside the second program, and beside an expert, which is safe Rust
//! written for speed alone, in one run: validity of an image, a box's answer to a message of each kind, also if every row
//! has to be looked through, if it comes late, or if the answer is RETRY, and with the rows that its search compared, the
//! merge, the coordinator's count, a row added to a table, and a stamp searched in one. What matters are ratios: all sides
//! are built for release and work on the same bytes on the same machine, in turns.
//!
//! `bench` measures times, has valgrind count instructions, looks how deep the library's calls go on the stack, and prints
//! tables in Markdown. `bench WORK SIDE SIZE TIMES`, as `bench insert library 511 50`, only does that work so many times, on
//! one side, for whoever counts its instructions. `bench stack` looks at the stack alone. `bench before PROGRAM` has the
//! instructions of the library counted beside those of an earlier commit, whose `bench` is that program. `bench expert
//! PATH` measures the expert beside the library of an earlier commit, which is loaded from the shared object at that path.
//! `bench gate LOG` prints the times that a log of the gate has. `tools/bench` does all of it.

mod answer;
mod asked;
mod base;
mod compared;
mod count;
mod expert;
mod gate;
mod insert;
mod instructions;
mod late;
mod merge;
mod newest;
mod passing;
mod retry;
mod search;
mod second;
mod stack;
mod tables;
mod times;
mod twin;
mod valid;
mod worst;

use answer::Answering;
use compared::Comparing;
use count::Counting;
use insert::Inserting;
use late::ComingLate;
use merge::Merging;
use newest::ReadingNewest;
use passing::Passing;
use retry::Retrying;
use search::Searching;
use std::path::Path;
use std::{env, process};
use times::Medians;
use twin::search::{Halving, Walk};
use valid::Judging;
use worst::ReadingOldest;

/// Work that all sides do on the same bytes.
pub trait Work {
    /// The word for it on the command line.
    const NAME: &'static str;
    /// The sizes with which it is measured, and what they are numbers of.
    const SIZES: [usize; 3] = [64, 256, 512];
    const UNIT: &'static str = "rows";
    /// What is measured, for whoever reads the figures.
    const ABOUT: &'static str;
    /// The public call that it is for the library, if it is one.
    const CALL: Option<&'static str>;
    /// The sides that do it, the library first.
    const SIDES: &'static [Side] = &[LIBRARY, TWIN, SECOND];

    /// The work of this size.
    fn of(size: usize) -> Self;
    /// How often it is done in one round of a side: seldom enough for a processor to keep all that it is done on at hand.
    fn times_a_round(size: usize) -> usize {
        16 * 512 / size
    }
    /// How many bytes each side goes over.
    fn bytes(&self) -> usize;
    /// Gets ready what the work is done on so many times. No part of this is measured.
    fn get_ready(&mut self, times: usize);
    /// Has one side do it so many times, at most as many as all was got ready for.
    fn done_by(&mut self, side: Side, times: usize);
    /// That this side did what it should, every time that all was got ready for.
    fn assert_done(&self, side: Side);
}

/// Adds a row to a table in its buffer, at an index.
type AddRow = unsafe fn(&mut [u8], usize, &[u8]);

/// Answers a message: the number, with the rows compared beside it.
type AnswerWord = fn(&mut [u8], &[u8], &mut [u8]) -> u64;

/// Copies the body of a stamp's row out of an image of so many rows, and returns its length, 0 if there is no such row.
type HeldBody = unsafe fn(&[u8], usize, u64, &mut [u8]) -> usize;

/// A side of the comparison: its name, and its ways to judge lent bytes, to answer a message, to merge tables, to count
/// replies in bytes, and, if it has them, to answer with the rows compared, to count replies as records, to add a row to a
/// table and to look a stamp up.
#[derive(Clone, Copy)]
pub struct Side {
    name: &'static str,
    valid_answer: fn(&[u8]) -> u64,
    answer: fn(&mut [u8], &[u8], &mut [u8]) -> u8,
    answer_word: Option<AnswerWord>,
    merge: fn(&[u8], u32, &mut [u8]) -> u8,
    count: fn(u8, &[u8]) -> u64,
    count_records: Option<fn(u8, &[boundary::Record]) -> u64>,
    add_row: Option<AddRow>,
    held_body: Option<HeldBody>,
}

pub const LIBRARY: Side = Side {
    name: "library",
    valid_answer: boundary::valid_answer,
    answer: boundary::answer,
    answer_word: Some(boundary::answer_word),
    merge: boundary::merge,
    count: boundary::count,
    count_records: Some(boundary::count_records),
    add_row: Some(trial::add_row),
    held_body: Some(search::held_body),
};

pub const TWIN: Side = Side {
    name: "twin",
    valid_answer: twin::valid::valid_answer,
    answer: twin::answer::answer::<Halving>,
    answer_word: None,
    merge: twin::merge::merge::<Halving>,
    count: twin::count::count,
    count_records: None,
    add_row: Some(twin::insert::add_row),
    held_body: Some(twin::search::held_body::<Halving>),
};

/// The twin, but for its search for a stamp, which walks the rows from the top, as the library did before request P3.
pub const WALK: Side = Side {
    name: "walk",
    answer: twin::answer::answer::<Walk>,
    merge: twin::merge::merge::<Walk>,
    held_body: Some(twin::search::held_body::<Walk>),
    ..TWIN
};

pub const SECOND: Side = Side {
    name: "second",
    valid_answer: reference::valid,
    answer: reference::answer,
    answer_word: None,
    merge: reference::merge,
    count: reference::count,
    count_records: Some(second::count_records),
    add_row: None,
    held_body: None,
};

/// What the calls could take, written for speed and not for proofs.
pub const EXPERT: Side = Side {
    name: "expert",
    valid_answer: expert::image::valid_answer,
    answer: expert::answer::answer,
    answer_word: None,
    merge: expert::merge::merge,
    count: expert::count::count,
    count_records: Some(expert::count::count_records),
    add_row: None,
    held_body: None,
};

/// The twin, but for a merge by another algorithm.
pub const CURSORS: Side = Side {
    name: "cursors",
    merge: twin::cursors::merge,
    ..TWIN
};

/// The twin, but for the count, which is that of the library from bytes.
pub const BYTES: Side = Side {
    name: "bytes",
    count: boundary::count,
    ..TWIN
};

/// The library, but for the answer that also says what was compared.
pub const ANSWER: Side = Side {
    name: "answer",
    answer_word: None,
    ..LIBRARY
};

/// A work by its name, and what can be had of it.
pub struct Named {
    name: &'static str,
    sizes: [usize; 3],
    unit: &'static str,
    about: &'static str,
    call: Option<&'static str>,
    sides: &'static [Side],
    times_counted: fn(usize) -> usize,
    medians: fn(&[Side], usize, usize) -> Medians,
    one_side: fn(&[Side], &str, &str, &str),
    deepest: fn() -> usize,
}

const fn named<W: Work>() -> Named {
    Named {
        name: W::NAME,
        sizes: W::SIZES,
        unit: W::UNIT,
        about: W::ABOUT,
        call: W::CALL,
        sides: W::SIDES,
        times_counted: times_counted::<W>,
        medians: times::medians::<W>,
        one_side: one_side::<W>,
        deepest: stack::deepest::<W>,
    }
}

/// Works whose figures stand in one table: of one unit, and done by the same sides.
pub struct Section {
    heading: &'static str,
    works: &'static [Named],
}

const SECTIONS: [Section; 9] = [
    Section {
        heading: "Validity",
        works: &[named::<Judging>()],
    },
    Section {
        heading: "Messages",
        works: &[
            named::<Answering<1>>(),
            named::<Answering<2>>(),
            named::<Answering<3>>(),
            named::<Answering<4>>(),
            named::<Answering<5>>(),
            named::<Answering<6>>(),
            named::<Answering<7>>(),
            named::<Passing<true>>(),
            named::<Passing<false>>(),
            named::<ComingLate>(),
            named::<ReadingNewest>(),
            named::<Retrying>(),
        ],
    },
    Section {
        heading: "Messages with the rows compared",
        works: &[named::<Comparing<1>>(), named::<Comparing<2>>()],
    },
    Section {
        heading: "Merge of the same stamps",
        works: &[
            named::<Merging<true, 3>>(),
            named::<Merging<true, 5>>(),
            named::<Merging<true, 7>>(),
            named::<ReadingOldest<true, 3>>(),
        ],
    },
    Section {
        heading: "Merge of disjoint stamps",
        works: &[
            named::<Merging<false, 3>>(),
            named::<Merging<false, 5>>(),
            named::<Merging<false, 7>>(),
            named::<ReadingOldest<false, 7>>(),
        ],
    },
    Section {
        heading: "Count of bytes",
        works: &[
            named::<Counting<true, false>>(),
            named::<Counting<false, false>>(),
        ],
    },
    Section {
        heading: "Count of records",
        works: &[
            named::<Counting<true, true>>(),
            named::<Counting<false, true>>(),
        ],
    },
    Section {
        heading: "A row added at the front",
        works: &[named::<Inserting>()],
    },
    Section {
        heading: "A stamp searched",
        works: &[named::<Searching<true>>(), named::<Searching<false>>()],
    },
];

fn works() -> impl Iterator<Item = &'static Named> {
    const ALL: &[Section] = &SECTIONS;
    ALL.iter().flat_map(|section| section.works)
}

fn main() {
    let words: Vec<String> = env::args().skip(1).collect();
    let words: Vec<&str> = words.iter().map(String::as_str).collect();
    let named = |name: &str| works().find(|work| work.name == name);
    match (&words[..], words.first().and_then(|name| named(name))) {
        ([], _) => tables::print_all(&SECTIONS),
        (["gate", log], _) => gate::print(log),
        (["stack"], _) => tables::print_stack(),
        (["before", program], _) => tables::print_before(Path::new(program)),
        (["expert", path], _) => asked::print(path),
        (["expert", path, name, side, size, times], _) => match named(name) {
            Some(work) => asked::one_side(path, work, side, size, times),
            None => refuse("there is no such work"),
        },
        ([_, side, size, times], Some(work)) => (work.one_side)(work.sides, side, size, times),
        _ => {
            let names: Vec<&str> = works().map(|work| work.name).collect();
            refuse(&format!(
                "give no word; or 'stack'; or 'before' and another bench; or 'expert' and a library; or 'gate' and a file; or \
                 one of {}, a side, a size and how often",
                names.join(", ")
            ))
        }
    }
}

/// All is got ready for so many times, however often the work is then done.
const MOST_TIMES: usize = 50;

/// How often a work is done for its instructions to be counted.
fn times_counted<W: Work>(size: usize) -> usize {
    W::times_a_round(size).min(MOST_TIMES)
}

/// Does the work so many times and nothing else that depends on how many.
fn one_side<W: Work>(sides: &[Side], name: &str, size: &str, times: &str) {
    let size = number(size, &W::SIZES);
    let times = number(times, &(0..=MOST_TIMES).collect::<Vec<usize>>());
    let mut work = W::of(size);
    work.get_ready(MOST_TIMES);
    match sides.iter().find(|side| side.name == name) {
        Some(side) => work.done_by(*side, times),
        None => refuse("no such side does this work"),
    }
}

fn number(word: &str, possible: &[usize]) -> usize {
    match word.parse() {
        Ok(number) if possible.contains(&number) => number,
        _ => refuse(&format!("{} is none of {:?}", word, possible)),
    }
}

fn refuse(why: &str) -> ! {
    eprintln!("bench: {}", why);
    process::exit(2);
}

#[cfg(test)]
mod tests {
    use super::{works, SECTIONS};

    #[test]
    fn all_sides_do_what_is_measured_as_the_second_program() {
        for work in works() {
            for size in work.sizes {
                let medians = (work.medians)(work.sides, size, 1);
                assert_eq!(medians.nanoseconds.len(), work.sides.len());
            }
        }
    }

    #[test]
    fn works_of_one_table_have_its_columns() {
        for section in &SECTIONS {
            for work in section.works {
                let names = |sides: &[super::Side]| -> Vec<&str> {
                    sides.iter().map(|side| side.name).collect()
                };
                assert_eq!(work.unit, section.works[0].unit, "{}", work.name);
                assert_eq!(names(work.sides), names(section.works[0].sides));
                assert_eq!(work.sides[0].name, "library");
            }
        }
    }

    #[test]
    fn a_work_has_its_own_name() {
        let mut names: Vec<&str> = works().map(|work| work.name).collect();
        names.sort_unstable();
        names.dedup();
        assert_eq!(names.len(), works().count());
    }
}
