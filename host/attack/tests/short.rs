//! A short attack for the gate, and that it has teeth: programs with one fault each, put in the place of the library.

mod common;
use attack::calls::LIBRARY;
use attack::rounds::{attack, Plan};
use attack::{Calls, Memory};
use common::{assert_found, found, plan};
use samples::TABLE_BYTES;

/// So many rounds, each kind in its turn.
const ROUNDS: u64 = 1_200;
/// So often at least each call ends with each number that it can end with, and so often all else is met that is counted.
const LEAST: u64 = 10;
#[test]
fn a_short_attack_finds_no_difference_and_meets_every_number() {
    let result = attack(&plan(LIBRARY, ROUNDS), &|_| ());
    assert_eq!(result.found, None);
    assert_eq!(result.rounds, ROUNDS);
    let missing = result.met.missing(LEAST);
    assert!(missing.is_empty(), "{:?}\n{}", missing, result.met);
}

#[test]
fn a_round_is_the_same_whenever_and_wherever_it_is_played() {
    let alone = |memory| {
        let plan = Plan {
            memory,
            from: 500,
            until: 524,
            threads: 1,
            ..plan(LIBRARY, 0)
        };
        attack(&plan, &|_| ())
    };
    let (fenced, again) = (alone(Memory::Fenced), alone(Memory::Fenced));
    assert_eq!(fenced, again);
    assert_eq!(fenced, alone(Memory::Allocated));
    assert!(fenced.met.calls() > 1_000);
}

/// Writes a byte behind the image that a buffer begins with, where there is one and a byte behind it.
fn touch_behind(buffer: &mut [u8]) {
    if let Ok(length) = boundary::valid(buffer) {
        if length < buffer.len() {
            buffer[length] ^= 1;
        }
    }
}

#[test]
fn a_byte_too_many_is_found_in_every_buffer() {
    let fresh = Calls {
        fresh: |table, n, box_number| {
            let number = boundary::fresh(table, n, box_number);
            table.get_mut(24).into_iter().for_each(|byte| *byte = 0);
            number
        },
        ..LIBRARY
    };
    assert_found("a 25th byte", fresh, Some("table"));
    let table = Calls {
        answer_word: |table, message, reply| {
            let word = boundary::answer_word(table, message, reply);
            touch_behind(table);
            word
        },
        ..LIBRARY
    };
    assert_found("a byte behind the table", table, Some("table"));
    let reply = Calls {
        answer_word: |table, message, reply| {
            let word = boundary::answer_word(table, message, reply);
            reply.get_mut(24).into_iter().for_each(|byte| *byte = 0);
            word
        },
        ..LIBRARY
    };
    assert_found("a byte behind the reply", reply, Some("reply"));
    let output = Calls {
        merge: |run, view, out| {
            let number = boundary::merge(run, view, out);
            touch_behind(out);
            number
        },
        ..LIBRARY
    };
    assert_found("a byte behind the merge", output, Some("output"));
}

/// A number given for another, and nothing else.
#[test]
fn a_refusal_that_is_another_is_found() {
    let seven = Calls {
        answer_word: |table, message, reply| {
            let word = boundary::answer_word(table, message, reply);
            word + u64::from(word as u8 == 7)
        },
        ..LIBRARY
    };
    assert_found("8 for 7", seven, None);
    let six = Calls {
        merge: |run, view, out| match boundary::merge(run, view, out) {
            6 => 5,
            number => number,
        },
        ..LIBRARY
    };
    assert_found("5 for 6", six, None);
    let short = Calls {
        answer_word: |table, message, reply| match table.len() == TABLE_BYTES - 1 {
            true => boundary::answer_word(&mut [&table[..], &[0]].concat(), message, reply),
            false => boundary::answer_word(table, message, reply),
        },
        ..LIBRARY
    };
    assert!(found(short).is_some(), "a buffer that is a byte too short");
}

/// Other rows compared, and nothing else.
#[test]
fn a_count_of_rows_that_is_another_is_found() {
    let fewer = Calls {
        answer_word: |table, message, reply| {
            let word = boundary::answer_word(table, message, reply);
            word - (u64::from(word >> 16 == 10) << 16)
        },
        ..LIBRARY
    };
    assert_found("9 for 10 rows", fewer, None);
    let told = Calls {
        answer_word: |table, message, reply| {
            let word = boundary::answer_word(table, message, reply);
            word + (u64::from(word == 9) << 16)
        },
        ..LIBRARY
    };
    assert_found("a row compared for another view", told, None);
    let elsewhere = Calls {
        answer_word: |table, message, reply| {
            let word = boundary::answer_word(table, message, reply);
            word & 0xff | word >> 16 << 8
        },
        ..LIBRARY
    };
    assert_found("the rows in bits 8 to 15", elsewhere, None);
}

/// The same faults, in the call that answers with the number alone.
#[test]
fn a_fault_of_the_number_alone_is_found() {
    let table = Calls {
        answer: |table, message, reply| {
            let number = boundary::answer(table, message, reply);
            touch_behind(table);
            number
        },
        ..LIBRARY
    };
    assert_found("a byte behind the table", table, Some("table"));
    let seven = Calls {
        answer: |table, message, reply| match boundary::answer(table, message, reply) {
            7 => 8,
            number => number,
        },
        ..LIBRARY
    };
    assert_found("8 for 7", seven, None);
}

#[test]
fn faults_of_a_judgement_and_of_a_count_are_found() {
    let valid = Calls {
        valid: |bytes| boundary::valid_answer(bytes) & !(1 << 16),
        ..LIBRARY
    };
    assert_found("lengths that are even", valid, None);
    let count = Calls {
        count: |n, replies| match boundary::count(n, replies) {
            6 => 3,
            word => word,
        },
        ..LIBRARY
    };
    assert_found("3 for 6", count, None);
    let records = Calls {
        count_records: |n, records| boundary::count_records(n, &records[records.len().min(1)..]),
        ..LIBRARY
    };
    assert_found("the first record left out", records, None);
}
