//! A fault in the coordinator's count.

use crate::machine::SECOND;
use reference::count::coded;
use reference::{Counts, Decision, PrepareResult};
use samples::Record;

/// Fast with a result that one box less than the fast count agrees on.
pub fn fast_with_one_less(n: u8, records: &[Record]) -> u64 {
    let fast = Counts::from_n(n).map_or(usize::MAX, |counts| counts.fast);
    let agree = |record: &&Record| {
        let same = records.iter().filter(|other| other.result == record.result);
        same.count() + 1 == fast
    };
    let result = records.iter().find(agree).map(|record| record.result);
    let result = result.and_then(|(code, retry)| PrepareResult::from_code(code, retry));
    let by_the_rules = (SECOND.count)(n, records);
    match (by_the_rules & 0xff, result) {
        (0, Some(result)) => coded(Ok(Decision::Fast(result))),
        _ => by_the_rules,
    }
}
