//! An attack on a program with a fault, put in the place of the library.

#![allow(dead_code)] // each file of tests uses a part of this

use attack::rounds::{attack, Found, Plan};
use attack::{Calls, Memory};

/// Within so many rounds a fault has to be found.
const ROUNDS_FOR_A_FAULT: u64 = 240;

pub fn plan(calls: Calls, rounds: u64) -> Plan {
    Plan {
        calls,
        memory: Memory::Fenced,
        from: 1,
        until: 1 + rounds,
        most_time: None,
        threads: 2,
    }
}

/// What the attack finds with this in the place of the library.
pub fn found(calls: Calls) -> Option<Found> {
    attack(&plan(calls, ROUNDS_FOR_A_FAULT), &|_| ()).found
}

/// That a fault is found, in the buffer that it is in, if it is in one.
pub fn assert_found(fault: &str, calls: Calls, buffer: Option<&str>) {
    let found = found(calls).unwrap_or_else(|| panic!("not found: {}", fault));
    let place = found.difference.place.map(|(buffer, _)| buffer);
    assert_eq!(place, buffer, "{}: {}", fault, found.difference);
}
