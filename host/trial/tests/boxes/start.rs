//! Every box of a group fresh, in buffers of every length about what n boxes need.

use crate::calls::Calls;
use crate::met::Met;
use samples::TABLE_BYTES;
use std::cmp::Ordering;

/// The n of every group and those beside them; then some that need large buffers before they can be refused for being
/// no group's.
const FEW: [u8; 10] = [0, 1, 2, 3, 4, 5, 6, 7, 8, 9];
const MANY: [u8; 5] = [15, 16, 127, 128, 255];

/// A buffer without room for n table buffers comes first, then a bad n.
const CASES: [(&str, &[u8]); 6] = [
    ("a group, too short", &[1]),
    ("a group, exactly enough", &[0]),
    ("a group, more than enough", &[0]),
    ("no group, too short", &[1]),
    ("no group, exactly enough", &[3]),
    ("no group, more than enough", &[3]),
];

/// Nothing at all, a box short, a byte short, enough, and more.
fn lengths(n: u8) -> Vec<usize> {
    let needed = TABLE_BYTES * usize::from(n);
    let short = [0, needed.saturating_sub(TABLE_BYTES)];
    let about = [needed.saturating_sub(1), needed, needed + 1];
    [&short[..], &about, &[needed + TABLE_BYTES + 17]].concat()
}

fn case(n: u8, length: usize) -> String {
    let group = match n {
        3 | 5 | 7 => "a group",
        _ => "no group",
    };
    let room = match length.cmp(&(TABLE_BYTES * usize::from(n))) {
        Ordering::Less => "too short",
        Ordering::Equal => "exactly enough",
        Ordering::Greater => "more than enough",
    };
    format!("{}, {}", group, room)
}

#[test]
fn a_group_starts_fresh_as_by_the_second_program() {
    let mut met = Met::default();
    for (seed, ns) in [(1, &FEW[..]), (2, &MANY)] {
        let most = usize::from(*ns.last().expect("an n"));
        let mut calls = Calls::with_tables(seed, TABLE_BYTES * (most + 1) + 17);
        for n in ns {
            for length in lengths(*n) {
                calls.tables.make_dirty();
                // A second time over what stands there then.
                for _ in 0..2 {
                    let number = calls.start_fresh(*n, length);
                    met.count(&case(*n, length), number);
                }
            }
        }
    }
    met.assert_all(&CASES, 6);
}
