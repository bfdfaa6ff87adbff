//! Why replies cannot be counted.

use super::NOT_SEEN;
use crate::calls::Record;
use crate::{names, wrong};

/// A reply that was to be counted, and the name of its file.
pub struct Named {
    pub name: String,
    pub record: Record,
    /// Whether it answers message 2.
    pub confirms: bool,
}

/// The reason of a refused count in a group of n.
pub fn reason(number: u8, n: u8, replies: &[Named]) -> String {
    let found = match number {
        3 => bad(n, replies),
        6 => contradiction(n, replies),
        _ => None,
    };
    found.unwrap_or_else(|| NOT_SEEN.to_string())
}

/// "Bad n, a box outside the group or twice, unequal views or a bad result: 3."
fn bad(n: u8, replies: &[Named]) -> Option<String> {
    if ![3, 5, 7].contains(&n) {
        return Some(names::bad_n(n));
    }
    if let Some(outside) = replies.iter().find(|reply| reply.record.box_number >= n) {
        return Some(format!(
            "{} is of box {}, and the boxes of {} are 0 to {}",
            outside.name,
            outside.record.box_number,
            n,
            n - 1
        ));
    }
    for (place, one) in replies.iter().enumerate() {
        for earlier in &replies[..place] {
            if earlier.record.box_number == one.record.box_number {
                return Some(format!(
                    "{} and {} are both of box {}",
                    earlier.name, one.name, one.record.box_number
                ));
            }
            if earlier.record.view != one.record.view {
                return Some(format!(
                    "{} is of view {}, and {} of view {}",
                    earlier.name, earlier.record.view, one.name, one.record.view
                ));
            }
        }
    }
    replies.iter().find_map(bad_result)
}

fn bad_result(reply: &Named) -> Option<String> {
    let Record { result, retry, .. } = reply.record;
    if !(1..=4).contains(&result) {
        return Some(format!(
            "{} has no result: its state byte says {}",
            reply.name, result
        ));
    }
    let found = wrong::body::retry_stamp(retry, result == 4, 16).err();
    found.map(|wrong| format!("{}, {}", reply.name, wrong.words()))
}

/// "Two unequal finals, or a fast count for a result other than a final one: 6."
fn contradiction(n: u8, replies: &[Named]) -> Option<String> {
    let result = |reply: &Named| (reply.record.result, reply.record.retry);
    let words = |reply: &Named| names::result(reply.record.result, reply.record.retry);
    let first = replies.iter().find(|reply| reply.record.is_final != 0)?;
    let is_other = |reply: &&Named| result(reply) != result(first);
    if let Some(other) = replies
        .iter()
        .filter(|reply| reply.record.is_final != 0)
        .find(is_other)
    {
        return Some(format!(
            "{} says final {}, and {} final {}",
            first.name,
            words(first),
            other.name,
            words(other)
        ));
    }
    let other = replies.iter().find(|reply| {
        let agree = replies
            .iter()
            .filter(|one| result(one) == result(reply))
            .count();
        result(reply) != result(first) && agree >= crate::commands::count::fast_count(n)
    })?;
    Some(format!(
        "{} says final {}, and a fast count of boxes says {}",
        first.name,
        words(first),
        words(other)
    ))
}
