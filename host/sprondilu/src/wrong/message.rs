//! "Messages to a box"

use super::{body, ensure, table, Good};
use crate::calls;
use crate::image::{number_at, u32_at, Header, Table, ACCESS_BYTES, HEADER_BYTES, ROW_BYTES};
use crate::message::IMAGE_PLACE;
use crate::names;

/// A place at which the bytes are no message. For message 6 the box's own n counts: none stands for a group as large as
/// the image's.
pub fn message(bytes: &[u8], n: Option<u8>) -> Good {
    ensure(!bytes.is_empty(), 0, || {
        "the message is empty, and begins with its kind".to_string()
    })?;
    match bytes[0] {
        1 => proposed(bytes, 9),
        2 => finalised_prepare(bytes),
        3 => proposed_outcome(bytes),
        4 => finalised_outcome(bytes),
        5 => length(bytes, 5),
        6 => started(bytes, n),
        7 => read(bytes),
        kind => ensure(false, 0, || {
            format!("the kind is {}, and kinds go from 1 to 7", kind)
        }),
    }
}

/// A message that is too short is wrong where it ends, one that is too long behind its end.
fn length(bytes: &[u8], wanted: usize) -> Good {
    let name = names::kind(bytes[0]);
    ensure(bytes.len() >= wanted, bytes.len(), || {
        format!(
            "the message ends here, and this {} has {} bytes",
            name, wanted
        )
    })?;
    ensure(bytes.len() <= wanted, wanted, || {
        let more = names::how_many(bytes.len() - wanted, "byte");
        format!("this {} ends here, and there is more of it: {}", name, more)
    })
}

/// What comes before the part whose length only the bytes before it tell is there; with that part the message is longer.
fn at_least(bytes: &[u8], before: usize, part: usize) -> Good {
    ensure(bytes.len() >= before, bytes.len(), || {
        let (name, wanted) = (names::kind(bytes[0]), before + part);
        format!(
            "the message ends here, and a {} has at least {} bytes",
            name, wanted
        )
    })
}

fn stamped(bytes: &[u8], wanted: usize) -> Good {
    length(bytes, wanted)?;
    body::stamp(number_at(bytes, 1, 8), 1)
}

/// The stamp at the front, and two counts and a body at the end.
fn proposed(bytes: &[u8], counts_place: usize) -> Good {
    let body_place = counts_place + 2;
    at_least(bytes, body_place, ACCESS_BYTES)?;
    let counts = (bytes[counts_place], bytes[counts_place + 1]);
    body::counts(counts.0, counts.1, counts_place)?;
    let accesses = usize::from(counts.0) + usize::from(counts.1);
    stamped(bytes, body_place + ACCESS_BYTES * accesses)?;
    body::accesses(bytes, body_place, counts, number_at(bytes, 1, 8))
}

fn proposed_outcome(bytes: &[u8]) -> Good {
    if let Some(code) = bytes.get(9) {
        verdict(*code, 9)?;
    }
    proposed(bytes, 10)
}

/// "1 commit or 2 abort"
fn verdict(code: u8, place: usize) -> Good {
    ensure([1, 2].contains(&code), place, || {
        format!(
            "the outcome is {}, and outcomes are 1 commit and 2 abort",
            code
        )
    })
}

fn finalised_prepare(bytes: &[u8]) -> Good {
    stamped(bytes, 22)?;
    let result = bytes[13];
    ensure((1..=4).contains(&result), 13, || {
        format!("the result is {}, and results go from 1 to 4", result)
    })?;
    body::retry_stamp(number_at(bytes, 14, 8), result == 4, 14)
}

fn finalised_outcome(bytes: &[u8]) -> Good {
    stamped(bytes, 14)?;
    verdict(bytes[13], 13)
}

fn read(bytes: &[u8]) -> Good {
    stamped(bytes, 10)?;
    ensure(bytes[9] <= 63, 9, || {
        format!(
            "the register is {}, and registers go from 0 to 63",
            bytes[9]
        )
    })
}

/// "The image must be normal, view v, box v mod n, the same n, start rows equal to rows, prepare bytes 0 or 5 to 8, outcomes 0, 3
/// or 4"
fn started(bytes: &[u8], n: Option<u8>) -> Good {
    at_least(bytes, IMAGE_PLACE, HEADER_BYTES)?;
    let rest = &bytes[IMAGE_PLACE..];
    let image = match calls::image_in(rest) {
        Some(image) => image,
        None => return table::image(rest).map_err(|wrong| wrong.further_on(IMAGE_PLACE)),
    };
    length(bytes, IMAGE_PLACE + image.len())?;
    beginning(image, u32_at(bytes, 1), n).map_err(|wrong| wrong.further_on(IMAGE_PLACE))?;
    settled(image).map_err(|wrong| wrong.further_on(IMAGE_PLACE))
}

fn beginning(image: &[u8], view: u32, n: Option<u8>) -> Good {
    let found = Header::at(image);
    let group = n.unwrap_or(found.n);
    ensure(found.n == group, 2, || {
        format!(
            "the image is of a group of {}, and this box is in one of {}",
            found.n, group
        )
    })?;
    ensure(found.mode == 0, 3, || {
        "the image is of a box that is changing, and a view begins with a normal one".to_string()
    })?;
    ensure(found.view == view, 8, || {
        format!(
            "the image is of view {}, and the message starts view {}",
            found.view, view
        )
    })?;
    let first = view % u32::from(found.n);
    ensure(u32::from(found.box_number) == first, 1, || {
        format!(
            "the image is of box {}, and view {} of {} boxes begins with box {}",
            found.box_number, view, found.n, first
        )
    })?;
    ensure(found.start_rows == found.rows, 16, || {
        format!(
            "the view begins with {} rows, and the image has {}",
            found.start_rows, found.rows
        )
    })
}

fn settled(image: &[u8]) -> Good {
    for (index, row) in Table::of(image).rows.iter().enumerate() {
        let place = HEADER_BYTES + ROW_BYTES * index;
        ensure(row.prepare == 0 || row.prepare >= 5, place + 22, || {
            format!(
                "row {} has a tentative result, and a view begins with final ones",
                index
            )
        })?;
        ensure(row.outcome == 0 || row.outcome >= 3, place + 23, || {
            format!(
                "row {} has an outcome that is only noted, and a view begins with done ones",
                index
            )
        })?;
    }
    Ok(())
}
