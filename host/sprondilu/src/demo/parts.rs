//! What the stories are told with: stamps, bodies, codes and counts, in few words.

use crate::calls::Counted;
use crate::image::{Access, Body};

pub const OK: u8 = 1;
pub const ABSTAIN: u8 = 3;
/// A final result is this much above the tentative one.
pub const FINAL: u8 = 4;
pub const COMMIT: u8 = 1;
pub const ABORT: u8 = 2;

/// The stamp of a time and a client.
pub const fn at(time: u64, client: u64) -> u64 {
    time * 65_536 + client
}

pub fn fast(result: u8) -> Counted {
    let retry_stamp = 0;
    Counted::Fast {
        result,
        retry_stamp,
    }
}

pub fn slow(result: u8) -> Counted {
    let retry_stamp = 0;
    Counted::Slow {
        result,
        retry_stamp,
    }
}

/// One register that is written, and, if it was read before, in which version.
pub fn body(register: u8, seen: Option<u64>, value: u64) -> Body {
    let access = |number| Access { register, number };
    Body {
        reads: seen.into_iter().map(access).collect(),
        writes: vec![access(value)],
    }
}
