//! "The coordinator's count"

use crate::bytes::Source;
use crate::group::Counts;
use crate::numbers::{first_that_applies, Number};
use crate::row::PrepareResult;
use std::collections::BTreeSet;

const RECORD_LENGTH: usize = 15;

/// One reply that is counted: "box, view, result with its retry stamp, final or not".
#[derive(Clone, Copy, Debug, PartialEq, Eq)]
pub struct Counted {
    pub box_number: u8,
    pub view: u32,
    pub result: PrepareResult,
    pub is_final: bool,
}

impl Counted {
    /// From 15 bytes: box 1, view 4, result 1, retry stamp 8, final 0 or 1.
    pub fn parse(bytes: &[u8]) -> Option<Counted> {
        let mut source = Source::new(bytes);
        let reply = Counted {
            box_number: source.one()?,
            view: source.four()?,
            result: PrepareResult::from_code(source.one()?, source.eight()?)?,
            is_final: match source.one()? {
                0 => false,
                1 => true,
                _ => return None,
            },
        };
        source.rest().is_empty().then_some(reply)
    }

    pub fn bytes(&self) -> Vec<u8> {
        let mut bytes = vec![self.box_number];
        bytes.extend(self.view.to_be_bytes());
        bytes.push(self.result.code());
        bytes.extend(self.result.retry_stamp().to_be_bytes());
        bytes.push(u8::from(self.is_final));
        bytes
    }
}

/// What the coordinator may do next.
#[derive(Clone, Copy, Debug, PartialEq, Eq)]
pub enum Decision {
    Wait,
    Fast(PrepareResult),
    Slow(PrepareResult),
}

/// The count over bytes; a record cut short or with a bad result is a bad message.
pub fn count_bytes(n: u8, bytes: &[u8]) -> Result<Decision, Number> {
    let records = bytes.chunks(RECORD_LENGTH).map(Counted::parse);
    let replies: Option<Vec<Counted>> = records.collect();
    decide(n, &replies.ok_or(Number::BadMessage)?)
}

/// The count over structures.
pub fn decide(n: u8, replies: &[Counted]) -> Result<Decision, Number> {
    let counts = Counts::from_n(n).ok_or(Number::BadMessage)?;
    let refusal = first_that_applies(|number| match number {
        Number::BadMessage => bad_replies(n, replies),
        Number::Contradiction => contradiction(counts, replies),
        _ => false,
    });
    match refusal {
        Number::Done => Ok(decision(counts, replies)),
        refusal => Err(refusal),
    }
}

/// "a box outside the group or twice, unequal views or a bad result: 3"
fn bad_replies(n: u8, replies: &[Counted]) -> bool {
    let boxes: BTreeSet<u8> = replies.iter().map(|reply| reply.box_number).collect();
    let views: BTreeSet<u32> = replies.iter().map(|reply| reply.view).collect();
    // A record built by hand may have a RETRY without a stamp.
    let bad_result = |reply: &Counted| {
        let result = reply.result;
        PrepareResult::from_code(result.code(), result.retry_stamp()).is_none()
    };
    boxes.iter().any(|box_number| *box_number >= n)
        || boxes.len() < replies.len()
        || views.len() > 1
        || replies.iter().any(bad_result)
}

/// "Two unequal finals, or a fast count for a result other than a final one: 6."
fn contradiction(counts: Counts, replies: &[Counted]) -> bool {
    let finals = replies.iter().filter(|reply| reply.is_final);
    let fast = fast_result(counts, replies);
    let against = |result: PrepareResult| {
        let other_final = |other: &Counted| other.is_final && other.result != result;
        replies.iter().any(other_final) || fast.map_or(false, |fast| fast != result)
    };
    finals.map(|reply| reply.result).any(against)
}

/// "fast with r if the fast count of boxes agree on r". Two results cannot both have it.
fn fast_result(counts: Counts, replies: &[Counted]) -> Option<PrepareResult> {
    let mut results = replies.iter().map(|reply| reply.result);
    results.find(|result| how_many(replies, *result) >= counts.fast)
}

fn how_many(replies: &[Counted], result: PrepareResult) -> usize {
    let agreeing = replies.iter().filter(|reply| reply.result == result);
    agreeing.count()
}

/// "fast with r if the fast count of boxes agree on r; wait if fewer than f+1 replies; slow with the final result if there
/// is one; slow ABORT if any is ABORT; slow OK if f+1 are OK; slow RETRY with the greatest stamp if any; slow ABSTAIN."
fn decision(counts: Counts, replies: &[Counted]) -> Decision {
    if let Some(result) = fast_result(counts, replies) {
        return Decision::Fast(result);
    }
    if replies.len() < counts.quorum {
        return Decision::Wait;
    }
    if let Some(reply) = replies.iter().find(|reply| reply.is_final) {
        return Decision::Slow(reply.result);
    }
    if how_many(replies, PrepareResult::Abort) > 0 {
        return Decision::Slow(PrepareResult::Abort);
    }
    if how_many(replies, PrepareResult::Ok) >= counts.quorum {
        return Decision::Slow(PrepareResult::Ok);
    }
    let stamps = replies.iter().map(|reply| reply.result.retry_stamp());
    match stamps.max() {
        Some(stamp) if stamp > 0 => Decision::Slow(PrepareResult::Retry(stamp)),
        _ => Decision::Slow(PrepareResult::Abstain),
    }
}

/// The number in bits 0 to 7; for number 0 the kind in bits 8 to 9 (0 wait, 1 fast, 2 slow), the result in bits 10 to 12
/// (0 for wait) and the retry stamp in bits 16 to 63.
pub fn coded(decision: Result<Decision, Number>) -> u64 {
    let with_result = |kind: u64, result: PrepareResult| {
        kind << 8 | u64::from(result.code()) << 10 | result.retry_stamp() << 16
    };
    match decision {
        Err(refusal) => u64::from(refusal.code()),
        Ok(Decision::Wait) => 0,
        Ok(Decision::Fast(result)) => with_result(1, result),
        Ok(Decision::Slow(result)) => with_result(2, result),
    }
}
