//! What a box is told, taken from bytes.

use super::image::{is_body, is_result, judged, Header, ACCESS};
use super::{is_stamp, u32_at, u64_at};

/// A body, which is the same bytes in a message and in a table.
#[derive(Clone, Copy)]
pub struct Body<'a> {
    pub counts: [u8; 2],
    pub bytes: &'a [u8],
}

impl<'a> Body<'a> {
    pub fn reads(self) -> &'a [u8] {
        &self.bytes[..ACCESS * usize::from(self.counts[0])]
    }

    pub fn writes(self) -> &'a [u8] {
        &self.bytes[ACCESS * usize::from(self.counts[0])..]
    }
}

/// The messages, with codes as they are sent.
pub enum Message<'a> {
    ProposePrepare(u64, Body<'a>),
    FinalisePrepare(u64, u32, (u8, u64)),
    ProposeOutcome(u64, u8, Body<'a>),
    FinaliseOutcome(u64, u32, u8),
    ChangeView(u32),
    StartView(u32, Header, &'a [u8]),
    Read(u64, u8),
}

impl Message<'_> {
    /// Nothing if it is a bad message, whatever the table is.
    pub fn parse(bytes: &[u8]) -> Option<Message<'_>> {
        let (kind, rest) = bytes.split_first()?;
        match kind {
            5 | 6 => Message::about_a_view(*kind, rest),
            1..=4 | 7 if rest.len() >= 8 && is_stamp(u64_at(rest, 0)) => {
                Message::about_a_stamp(*kind, u64_at(rest, 0), &rest[8..])
            }
            _ => None,
        }
    }

    fn about_a_stamp(kind: u8, stamp: u64, rest: &[u8]) -> Option<Message<'_>> {
        match (kind, rest) {
            (1, [reads, writes, bytes @ ..]) => {
                let body = body([*reads, *writes], bytes, stamp)?;
                Some(Message::ProposePrepare(stamp, body))
            }
            (2, _) if rest.len() == 13 && is_result(rest[4], u64_at(rest, 5)) => {
                let result = (rest[4], u64_at(rest, 5));
                Some(Message::FinalisePrepare(stamp, u32_at(rest, 0), result))
            }
            (3, [outcome @ 1..=2, reads, writes, bytes @ ..]) => {
                let body = body([*reads, *writes], bytes, stamp)?;
                Some(Message::ProposeOutcome(stamp, *outcome, body))
            }
            (4, [_, _, _, _, outcome @ 1..=2]) => {
                Some(Message::FinaliseOutcome(stamp, u32_at(rest, 0), *outcome))
            }
            (7, [register @ 0..=63]) => Some(Message::Read(stamp, *register)),
            _ => None,
        }
    }

    fn about_a_view(kind: u8, rest: &[u8]) -> Option<Message<'_>> {
        if rest.len() < 4 {
            return None;
        }
        let (view, image) = (u32_at(rest, 0), &rest[4..]);
        if kind == 5 {
            return image.is_empty().then_some(Message::ChangeView(view));
        }
        let header = judged(image)?;
        let is_whole = header.length == image.len();
        is_whole.then_some(Message::StartView(view, header, image))
    }
}

fn body(counts: [u8; 2], bytes: &[u8], stamp: u64) -> Option<Body<'_>> {
    is_body(bytes, counts, stamp).then_some(Body { counts, bytes })
}
