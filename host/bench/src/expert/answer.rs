//! A box's answer to one message: the first refusal that applies, or the table changed where it stands.

use super::image::{judged, Accesses, Header, ACCESS, BUFFER, HEADER, MOST_ROWS, ROW};
use super::insert::{insert, NewRow};
use super::message::{Body, Message};
use super::number::*;
use super::proposal::proposal;
use super::result::{ABORT, FINAL, OK};
use super::{f_of, u32_at, u64_at};

const REPLY: usize = 24;
const PREPARE: usize = 22;
const OUTCOME: usize = 23;

/// What a reply says behind its number, kind and box.
struct Said {
    state: u8,
    view: u32,
    stamp: u64,
    value: u64,
}

/// Answers the message and returns the number.
pub fn answer(table: &mut [u8], message: &[u8], reply: &mut [u8]) -> u8 {
    if table.len() < BUFFER || reply.len() < REPLY {
        return SMALL_BUFFER;
    }
    let reply = &mut reply[..REPLY];
    match answered(table, message) {
        Ok(said) => {
            let view = u64::from(said.view);
            let first = u64::from_be_bytes([0, message[0], table[1], said.state, 0, 0, 0, 0]);
            reply[..8].copy_from_slice(&(first | view).to_be_bytes());
            reply[8..16].copy_from_slice(&said.stamp.to_be_bytes());
            reply[16..].copy_from_slice(&said.value.to_be_bytes());
            0
        }
        Err(number) => {
            reply.fill(0);
            reply[0] = number;
            number
        }
    }
}

fn answered(table: &mut [u8], message: &[u8]) -> Result<Said, u8> {
    let header = judged(table).ok_or(BAD_TABLE)?;
    let message = Message::parse(message).ok_or(BAD_MESSAGE)?;
    match message {
        Message::ChangeView(view) => return change_view(table, &header, view),
        Message::StartView(view, started, image) => {
            return start_view(table, &header, view, &started, image)
        }
        _ if header.is_changing => return Err(CHANGING),
        _ => {}
    }
    let (state, stamp, value) = match message {
        Message::ProposePrepare(stamp, body) => propose_prepare(table, &header, stamp, body)?,
        Message::FinalisePrepare(stamp, view, result) => {
            finalise_prepare(table, &header, (stamp, view), result)?
        }
        Message::ProposeOutcome(stamp, outcome, body) => {
            propose_outcome(table, &header, (stamp, outcome), body)?
        }
        Message::FinaliseOutcome(stamp, view, outcome) => {
            finalise_outcome(table, &header, (stamp, view), outcome)?
        }
        Message::Read(stamp, register) => newest_write(table, &header, stamp, register),
        Message::ChangeView(_) | Message::StartView(..) => unreachable!("they were answered"),
    };
    Ok(Said {
        state,
        view: header.view,
        stamp,
        value,
    })
}

/// Where the row of a stamp stands in the table, or before which place it would stand.
fn searched(table: &[u8], header: &Header, stamp: u64) -> Result<usize, usize> {
    let (mut from, mut left) = (0, header.rows);
    while left > 0 {
        let half = left / 2;
        if u64_at(table, HEADER + ROW * (from + half)) < stamp {
            (from, left) = (from + half + 1, left - half - 1);
        } else {
            left = half;
        }
    }
    let at = HEADER + ROW * from;
    if from < header.rows && u64_at(table, at) == stamp {
        return Ok(at);
    }
    Err(from)
}

/// "512 less the start rows, divided by f+1 and rounded down"
fn has_room(header: &Header) -> bool {
    let tables = f_of(header.n).map_or(1, |f| f as usize + 1);
    header.rows - header.start_rows < (MOST_ROWS - header.start_rows) / tables
}

fn has_body(table: &[u8], at: usize, body: Body) -> bool {
    let offset = u32_at(table, at + 16) as usize;
    table[at + 20..at + 22] == body.counts
        && table[offset..offset + body.bytes.len()] == *body.bytes
}

fn propose_prepare(
    table: &mut [u8],
    header: &Header,
    stamp: u64,
    body: Body,
) -> Result<(u8, u64, u64), u8> {
    let place = match searched(table, header, stamp) {
        Ok(at) if !has_body(table, at, body) => return Err(OTHER_BODY),
        Ok(at) => {
            if table[at + PREPARE] == 0 {
                let is_commit = table[at + OUTCOME] % 2 == 1;
                table[at + PREPARE] = if is_commit { OK } else { ABORT };
            }
            return Ok((table[at + PREPARE], stamp, u64_at(table, at + 8)));
        }
        Err(_) if !has_room(header) => return Err(FULL),
        Err(place) => place,
    };
    let (prepare, retry) = proposal(table, header.rows, place, body);
    let row = NewRow {
        stamp,
        retry,
        prepare,
        outcome: 0,
    };
    insert(table, header, place, &row, body);
    Ok((prepare, stamp, retry))
}

fn finalise_prepare(
    table: &mut [u8],
    header: &Header,
    (stamp, view): (u64, u32),
    (code, retry): (u8, u64),
) -> Result<(u8, u64, u64), u8> {
    if view != header.view {
        return Err(OTHER_VIEW);
    }
    let at = searched(table, header, stamp).map_err(|_| UNKNOWN)?;
    let held = table[at + PREPARE];
    if held == 0 {
        return Err(UNKNOWN);
    }
    if held > FINAL && (held != code + FINAL || u64_at(table, at + 8) != retry) {
        return Err(CONTRADICTION);
    }
    table[at + PREPARE] = code + FINAL;
    table[at + 8..at + 16].copy_from_slice(&retry.to_be_bytes());
    Ok((code + FINAL, stamp, retry))
}

fn propose_outcome(
    table: &mut [u8],
    header: &Header,
    (stamp, outcome): (u64, u8),
    body: Body,
) -> Result<(u8, u64, u64), u8> {
    let place = match searched(table, header, stamp) {
        Ok(at) if !has_body(table, at, body) => return Err(OTHER_BODY),
        Ok(at) => {
            match table[at + OUTCOME] {
                0 => table[at + OUTCOME] = outcome,
                held if held % 2 != outcome % 2 => return Err(CONTRADICTION),
                _ => {}
            }
            return Ok((table[at + OUTCOME], stamp, 0));
        }
        Err(_) if !has_room(header) => return Err(FULL),
        Err(place) => place,
    };
    let row = NewRow {
        stamp,
        retry: 0,
        prepare: 0,
        outcome,
    };
    insert(table, header, place, &row, body);
    Ok((outcome, stamp, 0))
}

fn finalise_outcome(
    table: &mut [u8],
    header: &Header,
    (stamp, view): (u64, u32),
    outcome: u8,
) -> Result<(u8, u64, u64), u8> {
    if view != header.view {
        return Err(OTHER_VIEW);
    }
    let at = searched(table, header, stamp).map_err(|_| UNKNOWN)?;
    match table[at + OUTCOME] {
        0 => return Err(UNKNOWN),
        held if held % 2 != outcome % 2 => return Err(CONTRADICTION),
        _ => table[at + OUTCOME] = outcome + 2,
    }
    Ok((outcome + 2, stamp, 0))
}

/// State, version and value: the first committed write of the register, from the stamp down.
fn newest_write(table: &[u8], header: &Header, stamp: u64, register: u8) -> (u8, u64, u64) {
    let end = match searched(table, header, stamp) {
        Ok(at) => at + ROW,
        Err(place) => HEADER + ROW * place,
    };
    for head in table[HEADER..end].chunks_exact(ROW).rev() {
        if head[OUTCOME] != 3 {
            continue;
        }
        let (reads, writes) = (usize::from(head[20]), usize::from(head[21]));
        let writes_at = u32_at(head, 16) as usize + ACCESS * reads;
        let writes = &table[writes_at..writes_at + ACCESS * writes];
        if let Some(write) = Accesses(writes).find(|write| write[0] == register) {
            return (0, u64_at(head, 0), u64_at(write, 1));
        }
    }
    (0, 0, 0)
}

fn change_view(table: &mut [u8], header: &Header, view: u32) -> Result<Said, u8> {
    if view <= header.promised {
        return Err(OLD_VIEW);
    }
    table[3] = 1;
    table[12..16].copy_from_slice(&view.to_be_bytes());
    Ok(Said {
        state: 0,
        view: header.view,
        stamp: u64::from(view),
        value: 0,
    })
}

fn start_view(
    table: &mut [u8],
    header: &Header,
    view: u32,
    started: &Header,
    image: &[u8],
) -> Result<Said, u8> {
    let is_start = !started.is_changing
        && started.view == view
        && started.n == header.n
        && u32::from(started.box_number) == view % u32::from(started.n)
        && started.start_rows == started.rows
        && started.is_settled;
    if !is_start {
        return Err(BAD_MESSAGE);
    }
    if view < header.promised || view <= header.view {
        return Err(OLD_VIEW);
    }
    table[..image.len()].copy_from_slice(image);
    table[1] = header.box_number;
    if image.len() < header.length {
        table[image.len()..header.length].fill(0);
    }
    Ok(Said {
        state: 0,
        view,
        stamp: 0,
        value: 0,
    })
}
