//! "The table image: contents first, bodies after"

use super::{body, ensure, Good};
use crate::image::{number_at, u32_at, Header, ACCESS_BYTES, HEADER_BYTES, MOST_ROWS, ROW_BYTES};
use crate::{names, stamps};

/// A place at which the bytes do not begin with an image by the rules.
pub fn image(bytes: &[u8]) -> Good {
    header(bytes)?;
    let rows = Header::at(bytes).rows as usize;
    let mut body_place = HEADER_BYTES + ROW_BYTES * rows;
    let mut last_stamp = 0;
    for index in 0..rows {
        let place = HEADER_BYTES + ROW_BYTES * index;
        row(bytes, place, index, last_stamp, body_place)?;
        last_stamp = number_at(bytes, place, 8);
        body_place += body_length(bytes, place);
    }
    let length = u32_at(bytes, 20) as usize;
    ensure(length == body_place, 20, || {
        format!(
            "the total length is {}, and the last body ends at byte {}",
            length, body_place
        )
    })
}

fn header(bytes: &[u8]) -> Good {
    let end = bytes.len();
    ensure(end > 0, end, || {
        "there is nothing here, and the header of a table has 24 bytes".to_string()
    })?;
    ensure(bytes[0] == 1, 0, || {
        format!("the format is {}, and the only one is 1", bytes[0])
    })?;
    ensure(end >= HEADER_BYTES, end, || {
        format!(
            "the file ends here, in the header, which has {} bytes",
            HEADER_BYTES
        )
    })?;
    let found = Header::at(bytes);
    group(&found)?;
    ensure(found.mode <= 1, 3, || {
        format!(
            "the mode is {}, and modes are 0 normal and 1 changing",
            found.mode
        )
    })?;
    ensure(found.rows <= MOST_ROWS, 4, || {
        format!("{} rows, and there are at most {}", found.rows, MOST_ROWS)
    })?;
    views(&found)?;
    sizes(&found, end)
}

/// "Start rows never exceed rows.": and a table has as many bytes as it says.
fn sizes(found: &Header, end: usize) -> Good {
    let (rows, start_rows, length) = (found.rows, found.start_rows, found.length);
    ensure(start_rows <= rows, 16, || {
        format!(
            "the view began with {} rows, and there are {}",
            start_rows, rows
        )
    })?;
    ensure(length as usize <= end, end, || {
        format!(
            "the file ends here, and by its total length, at byte 20, the table has {} bytes",
            length
        )
    })
}

/// "n = 3, 5 or 7 boxes, numbered 0 to n-1"
fn group(found: &Header) -> Good {
    let (n, box_number) = (found.n, found.box_number);
    ensure([3, 5, 7].contains(&n), 2, || names::bad_n(n))?;
    ensure(box_number < n, 1, || {
        format!(
            "the box is {}, and those of {} are 0 to {}",
            box_number,
            n,
            n - 1
        )
    })
}

/// "Normal: promised = view. Changing: promised > view."
fn views(found: &Header) -> Good {
    let (view, promised) = (found.view, found.promised);
    ensure(found.mode != 0 || promised == view, 12, || {
        format!(
            "the box is normal in view {}, so that it has promised that view, and this says {}",
            view, promised
        )
    })?;
    ensure(found.mode != 1 || promised > view, 12, || {
        format!("the box is changing from view {}, so that it has promised a later one, and this says {}", view, promised)
    })
}

/// One row, with the stamp before it and the place where its body belongs.
fn row(bytes: &[u8], place: usize, index: usize, last_stamp: u64, body_place: usize) -> Good {
    let end = bytes.len();
    ensure(place + ROW_BYTES <= end, end, || {
        format!("the file ends here, in row {} (the first is row 0)", index)
    })?;
    let stamp = number_at(bytes, place, 8);
    body::stamp(stamp, place)?;
    ensure(stamp > last_stamp, place, || {
        format!(
            "row {} has the stamp {} behind the stamp {}: they rise",
            index,
            stamps::short(stamp),
            stamps::short(last_stamp)
        )
    })?;
    let counts = (bytes[place + 20], bytes[place + 21]);
    body::counts(counts.0, counts.1, place + 20)?;
    state(bytes, place)?;
    let offset = u32_at(bytes, place + 16) as usize;
    ensure(offset == body_place, place + 16, || {
        format!(
            "the body offset of row {} is {}, and its body belongs at byte {}",
            index, offset, body_place
        )
    })?;
    let body_end = body_place + body_length(bytes, place);
    ensure(body_end <= end, end, || {
        format!(
            "the file ends here, and the body of row {} goes up to byte {}",
            index, body_end
        )
    })?;
    body::accesses(bytes, body_place, counts, stamp)
}

/// "Prepare: 0 none; 1 to 4 [..]; 5 to 8 [..]. Outcome: 0 none [..] 4 abort done. Not both zero."
fn state(bytes: &[u8], place: usize) -> Good {
    let (prepare, outcome) = (bytes[place + 22], bytes[place + 23]);
    ensure(prepare <= 8, place + 22, || {
        format!(
            "the prepare byte is {}, and prepare bytes go from 0 to 8",
            prepare
        )
    })?;
    ensure(outcome <= 4, place + 23, || {
        format!(
            "the outcome byte is {}, and outcome bytes go from 0 to 4",
            outcome
        )
    })?;
    ensure(prepare > 0 || outcome > 0, place + 22, || {
        "the prepare byte and the outcome byte are both 0".to_string()
    })?;
    body::retry_stamp(
        number_at(bytes, place + 8, 8),
        prepare == 4 || prepare == 8,
        place + 8,
    )
}

fn body_length(bytes: &[u8], place: usize) -> usize {
    ACCESS_BYTES * (usize::from(bytes[place + 20]) + usize::from(bytes[place + 21]))
}
