//! A message as the proved library reads it: each kind with its exact length, its codes, its stamp, its body.

use super::check::Transaction;
use super::valid::{
    accesses_are_valid, counts_are_valid, image_length, is_stamp, retry_is_valid, Header, Row,
};
use super::{u32_at, u64_at, ACCESS_LENGTH};

/// A message that keeps every rule.
pub(super) enum Message<'a> {
    ProposePrepare {
        new: Transaction<'a>,
    },
    FinalisePrepare {
        stamp: u64,
        view: u32,
        result: u8,
        retry: u64,
    },
    ProposeOutcome {
        verdict: u8,
        new: Transaction<'a>,
    },
    FinaliseOutcome {
        stamp: u64,
        view: u32,
        verdict: u8,
    },
    ChangeView {
        view: u32,
    },
    StartView {
        view: u32,
        image: &'a [u8],
    },
    ReadRegister {
        stamp: u64,
        register: u8,
    },
}

/// The message that lent bytes are, for a box of a group of `n`.
pub(super) fn read(message: &[u8], n: u8) -> Option<Message<'_>> {
    let kind = *message.first()?;
    match (kind, message.len()) {
        (1, 11..) => propose_prepare(message),
        (2, 22) => finalise_prepare(message),
        (3, 12..) => propose_outcome(message),
        (4, 14) => finalise_outcome(message),
        (5, 5) => Some(Message::ChangeView {
            view: u32_at(message, 1),
        }),
        (6, 5..) => start_view(message, n),
        (7, 10) => read_register(message),
        _ => None,
    }
}

/// The transaction at a stamp whose counts stand at a place, with its body right behind them.
fn transaction(message: &[u8], counts_at: usize) -> Option<Transaction<'_>> {
    let (counts, body) = message[counts_at..].split_at(2);
    let (stamp, reads, writes) = (u64_at(message, 1), counts[0], counts[1]);
    if !is_stamp(stamp) || !counts_are_valid(reads, writes) {
        return None;
    }
    if body.len() != ACCESS_LENGTH * usize::from(reads + writes) {
        return None;
    }
    let (read, written) = body.split_at(ACCESS_LENGTH * usize::from(reads));
    let good = accesses_are_valid(read, stamp - 1) && accesses_are_valid(written, u64::MAX);
    good.then_some(Transaction {
        stamp,
        reads,
        writes,
        body,
    })
}

fn propose_prepare(message: &[u8]) -> Option<Message<'_>> {
    let new = transaction(message, 9)?;
    Some(Message::ProposePrepare { new })
}

fn finalise_prepare(message: &[u8]) -> Option<Message<'_>> {
    let (stamp, result, retry) = (u64_at(message, 1), message[13], u64_at(message, 14));
    let good = is_stamp(stamp) && matches!(result, 1..=4) && retry_is_valid(result, retry);
    good.then_some(Message::FinalisePrepare {
        stamp,
        view: u32_at(message, 9),
        result,
        retry,
    })
}

fn propose_outcome(message: &[u8]) -> Option<Message<'_>> {
    let verdict = message[9];
    if !matches!(verdict, 1 | 2) {
        return None;
    }
    let new = transaction(message, 10)?;
    Some(Message::ProposeOutcome { verdict, new })
}

fn finalise_outcome(message: &[u8]) -> Option<Message<'_>> {
    let (stamp, verdict) = (u64_at(message, 1), message[13]);
    let good = is_stamp(stamp) && matches!(verdict, 1 | 2);
    good.then_some(Message::FinaliseOutcome {
        stamp,
        view: u32_at(message, 9),
        verdict,
    })
}

fn read_register(message: &[u8]) -> Option<Message<'_>> {
    let (stamp, register) = (u64_at(message, 1), message[9]);
    (is_stamp(stamp) && register < 64).then_some(Message::ReadRegister { stamp, register })
}

fn start_view(message: &[u8], n: u8) -> Option<Message<'_>> {
    let (view, image) = (u32_at(message, 1), &message[5..]);
    let good = image_length(image) == Some(image.len()) && begins(image, view, n);
    good.then_some(Message::StartView { view, image })
}

/// Whether an image is one that a view of a group of `n` begins with.
fn begins(image: &[u8], view: u32, n: u8) -> bool {
    let header = Header::read(image);
    header.mode == 0
        && header.view == view
        && header.n == n
        && u32::from(header.box_number) == view % u32::from(n)
        && header.start_rows == header.rows
        && (0..header.rows as usize).all(|index| is_settled(&Row::read(image, index)))
}

fn is_settled(row: &Row) -> bool {
    matches!(row.prepare, 0 | 5..=8) && matches!(row.outcome, 0 | 3 | 4)
}
