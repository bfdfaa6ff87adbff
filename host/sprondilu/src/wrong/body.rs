//! "Stamps and bodies"

use super::{ensure, Good};
use crate::image::{number_at, ACCESS_BYTES};
use crate::stamps;

const MOST_OF_A_KIND: u8 = 4;
const GREATEST_REGISTER: u8 = 63;

/// "A stamp is 1 to 2^48-1 in 8 bytes"
pub fn stamp(stamp: u64, place: usize) -> Good {
    ensure(stamp > 0 && stamp <= stamps::GREATEST, place, || {
        format!(
            "the stamp is {}, and stamps go from 1 to {}",
            stamp,
            stamps::GREATEST
        )
    })
}

/// "0 to 4 reads, then 0 to 4 writes, at least one access in all": the two counts stand one behind the other.
pub fn counts(reads: u8, writes: u8, place: usize) -> Good {
    ensure(reads <= MOST_OF_A_KIND, place, || {
        format!("{} reads, and there are at most 4", reads)
    })?;
    ensure(writes <= MOST_OF_A_KIND, place + 1, || {
        format!("{} writes, and there are at most 4", writes)
    })?;
    ensure(reads > 0 || writes > 0, place, || {
        "neither a read nor a write".to_string()
    })
}

/// The accesses of a body whose counts are good and whose bytes are there.
pub fn accesses(bytes: &[u8], place: usize, counts: (u8, u8), stamp: u64) -> Good {
    let reads = usize::from(counts.0);
    let first_write = place + ACCESS_BYTES * reads;
    registers(bytes, place, reads, "read")?;
    for index in 0..reads {
        let at = place + ACCESS_BYTES * index + 1;
        let version = number_at(bytes, at, 8);
        ensure(version < stamp, at, || {
            format!(
                "the version seen is {}, which is not below the stamp {}",
                stamps::short(version),
                stamps::short(stamp)
            )
        })?;
    }
    registers(bytes, first_write, usize::from(counts.1), "write")
}

/// "register (0 to 63)"; "Reads have strictly rising registers; so have writes."
fn registers(bytes: &[u8], place: usize, how_many: usize, kind: &str) -> Good {
    let mut last = None;
    for index in 0..how_many {
        let at = place + ACCESS_BYTES * index;
        let register = bytes[at];
        ensure(register <= GREATEST_REGISTER, at, || {
            format!(
                "a {} of register {}, and registers go from 0 to 63",
                kind, register
            )
        })?;
        ensure(last != Some(register), at, || {
            format!("two {}s of register {}", kind, register)
        })?;
        ensure(last < Some(register), at, || {
            format!(
                "a {} of register {} after one of a greater register",
                kind, register
            )
        })?;
        last = Some(register);
    }
    Ok(())
}

/// "0 none; 1 to 4 [..]; 5 to 8 the same, final": "The retry stamp is a stamp for RETRY and 0 otherwise."
pub fn retry_stamp(retry_stamp: u64, is_retry: bool, place: usize) -> Good {
    let is_stamp = retry_stamp > 0 && retry_stamp <= stamps::GREATEST;
    ensure(!is_retry || is_stamp, place, || {
        format!(
            "the retry stamp of RETRY is {}, and stamps go from 1 to {}",
            retry_stamp,
            stamps::GREATEST
        )
    })?;
    ensure(is_retry || retry_stamp == 0, place, || {
        format!(
            "the retry stamp is {}, and without RETRY it is 0",
            stamps::short(retry_stamp)
        )
    })
}
