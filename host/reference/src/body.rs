//! "A body is 0 to 4 reads, then 0 to 4 writes, at least one access in all; each is 9 bytes."

use crate::bytes::Source;
use std::collections::BTreeMap;

pub const GREATEST_REGISTER: u8 = 63;
const MOST_OF_A_KIND: u8 = 4;
const ACCESS_LENGTH: usize = 9;

/// What a transaction reads and writes. A map has each register once and in rising order, as "Reads have strictly
/// rising registers; so have writes" asks; "A register may be both read and written", so there are two maps.
#[derive(Clone, Debug, PartialEq, Eq, Default)]
pub struct Body {
    /// From the register to "the version seen (0 for never written, always below the stamp)".
    pub reads: BTreeMap<u8, u64>,
    /// From the register to "any 8-byte value".
    pub writes: BTreeMap<u8, u64>,
}

impl Body {
    /// Takes the body of the transaction at a stamp, with the counts that stand before it.
    pub fn take(source: &mut Source, counts: (u8, u8), stamp: u64) -> Option<Body> {
        let reads = take_accesses(source, counts.0)?;
        let writes = take_accesses(source, counts.1)?;
        let none_at_all = reads.is_empty() && writes.is_empty();
        let below_the_stamp = reads.values().all(|version| *version < stamp);
        if none_at_all || !below_the_stamp {
            return None;
        }
        Some(Body { reads, writes })
    }

    pub fn counts(&self) -> [u8; 2] {
        [self.reads.len() as u8, self.writes.len() as u8]
    }

    pub fn length(&self) -> usize {
        ACCESS_LENGTH * (self.reads.len() + self.writes.len())
    }

    pub fn bytes(&self) -> Vec<u8> {
        let mut bytes = Vec::new();
        for (register, number) in self.reads.iter().chain(&self.writes) {
            bytes.push(*register);
            bytes.extend(number.to_be_bytes());
        }
        bytes
    }
}

/// Takes 0 to 4 accesses: "register (0 to 63), then for a read the version seen [..], for a write any 8-byte value".
fn take_accesses(source: &mut Source, count: u8) -> Option<BTreeMap<u8, u64>> {
    if count > MOST_OF_A_KIND {
        return None;
    }
    let mut accesses = BTreeMap::new();
    for _ in 0..count {
        let register = source.one()?;
        let rising = accesses.keys().all(|earlier| *earlier < register);
        if register > GREATEST_REGISTER || !rising {
            return None;
        }
        accesses.insert(register, source.eight()?);
    }
    Some(accesses)
}
