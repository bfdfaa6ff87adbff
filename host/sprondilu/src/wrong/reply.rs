//! A reply, which no call of the library judges: "Reply, 24 bytes: number 0, kind, box, state byte [..]"; refused, "the number in byte
//! 0 and 23 zero bytes".

use super::{body, ensure, Good};
use crate::calls::REPLY_BYTES;
use crate::names;
use crate::reply::Reply;

/// A place at which the bytes are no reply that a box gives.
pub fn reply(bytes: &[u8]) -> Good {
    let end = bytes.len();
    ensure(end >= REPLY_BYTES, end, || {
        format!("the reply ends here, and a reply has {} bytes", REPLY_BYTES)
    })?;
    ensure(end <= REPLY_BYTES, REPLY_BYTES, || {
        let more = names::how_many(end - REPLY_BYTES, "byte");
        format!("a reply ends here, and there is more of it: {}", more)
    })?;
    match bytes[0] {
        0 => answer(&Reply::of(bytes).expect("a reply by its length")),
        1 => ensure(false, 0, || {
            "the number is 1, for which a box gives no reply".to_string()
        }),
        11 => ensure(false, 0, || {
            "the number is 11, which is given for merges alone".to_string()
        }),
        number if number > 11 => ensure(false, 0, || {
            format!("the number is {}, and numbers go from 0 to 11", number)
        }),
        _ => refusal(bytes),
    }
}

fn answer(found: &Reply) -> Good {
    ensure((1..=7).contains(&found.kind), 1, || {
        format!("the kind is {}, and kinds go from 1 to 7", found.kind)
    })?;
    ensure(found.box_number < 7, 2, || {
        format!(
            "the box is {}, and no group has more than 7 boxes",
            found.box_number
        )
    })?;
    if found.kind >= 5 {
        ensure(found.state == 0, 3, || {
            format!(
                "the state byte is {}, and in this reply it is 0",
                found.state
            )
        })?;
    }
    match found.kind {
        1 | 2 => prepared(found),
        3 | 4 => outcome(found),
        5 => promised(found),
        6 => started(found),
        _ => version(found),
    }
}

/// "6 with v below promised or at or below view" is an old view: no box starts view 0.
fn started(found: &Reply) -> Good {
    ensure(found.view > 0, 4, || {
        "the view that was started is 0, in which boxes begin".to_string()
    })?;
    ensure(found.stamp == 0, 8, || {
        "the stamp of a view that was started is 0".to_string()
    })?;
    no_value(found)
}

fn refusal(bytes: &[u8]) -> Good {
    let first = bytes
        .iter()
        .skip(1)
        .position(|byte| *byte != 0)
        .map(|place| place + 1);
    ensure(first.is_none(), first.unwrap_or(0), || {
        "a refusal has zero bytes behind its number".to_string()
    })
}

fn prepared(found: &Reply) -> Good {
    let least = if found.kind == 2 { 5 } else { 1 };
    ensure((least..=8).contains(&found.state), 3, || {
        format!(
            "the state byte is {}, and in this reply it goes from {} to 8",
            found.state, least
        )
    })?;
    body::stamp(found.stamp, 8)?;
    body::retry_stamp(found.value, found.state == 4 || found.state == 8, 16)
}

fn outcome(found: &Reply) -> Good {
    let least = if found.kind == 4 { 3 } else { 1 };
    ensure((least..=4).contains(&found.state), 3, || {
        format!(
            "the state byte is {}, and in this reply it goes from {} to 4",
            found.state, least
        )
    })?;
    body::stamp(found.stamp, 8)?;
    no_value(found)
}

fn promised(found: &Reply) -> Good {
    ensure(
        found.stamp <= u64::from(u32::MAX) && found.stamp > u64::from(found.view),
        8,
        || {
            format!(
                "the promised view is {}, and the box is in view {}",
                found.stamp, found.view
            )
        },
    )?;
    no_value(found)
}

fn version(found: &Reply) -> Good {
    if found.stamp == 0 {
        return ensure(found.value == 0, 16, || {
            "a register that was never written has the value 0".to_string()
        });
    }
    body::stamp(found.stamp, 8)
}

fn no_value(found: &Reply) -> Good {
    ensure(found.value == 0, 16, || {
        format!("the value is {}, and in this reply it is 0", found.value)
    })
}
