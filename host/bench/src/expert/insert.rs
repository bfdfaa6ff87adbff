//! A row added to a table where it stands: bodies make room once, and each stretch of bytes moves once.

use super::image::{Header, HEADER, ROW};
use super::message::Body;
use super::u32_at;

/// What a new row holds beside its body.
pub struct NewRow {
    pub stamp: u64,
    pub retry: u64,
    pub prepare: u8,
    pub outcome: u8,
}

/// Adds a row before the one at a place.
pub fn insert(table: &mut [u8], header: &Header, place: usize, row: &NewRow, body: Body) {
    let bodies = HEADER + ROW * header.rows;
    let head = HEADER + ROW * place;
    let own = if place < header.rows {
        u32_at(table, head + 16) as usize
    } else {
        header.length
    };
    let longer = ROW + body.bytes.len();
    table.copy_within(own..header.length, own + longer);
    table.copy_within(bodies..own, bodies + ROW);
    table.copy_within(head..bodies, head + ROW);
    table[own + ROW..own + longer].copy_from_slice(body.bytes);
    table[head..head + ROW].copy_from_slice(&row.head((own + ROW) as u32, body.counts));
    raise_offsets(&mut table[HEADER..head], ROW as u32);
    raise_offsets(&mut table[head + ROW..bodies + ROW], longer as u32);
    table[4..8].copy_from_slice(&(header.rows as u32 + 1).to_be_bytes());
    table[20..24].copy_from_slice(&((header.length + longer) as u32).to_be_bytes());
}

impl NewRow {
    fn head(&self, offset: u32, counts: [u8; 2]) -> [u8; ROW] {
        let codes = u16::from_be_bytes([self.prepare, self.outcome]);
        let word = u64::from(offset) << 32
            | u64::from(u16::from_be_bytes(counts)) << 16
            | u64::from(codes);
        head_of(self.stamp, self.retry, word)
    }
}

/// A row of three words: its stamp, its retry stamp, and its offset, counts and codes together.
pub fn head_of(stamp: u64, retry: u64, word: u64) -> [u8; ROW] {
    let mut head = [0; ROW];
    head[..8].copy_from_slice(&stamp.to_be_bytes());
    head[8..16].copy_from_slice(&retry.to_be_bytes());
    head[16..].copy_from_slice(&word.to_be_bytes());
    head
}

fn raise_offsets(heads: &mut [u8], by: u32) {
    for head in heads.chunks_exact_mut(ROW) {
        let raised = u32_at(head, 16) + by;
        head[16..20].copy_from_slice(&raised.to_be_bytes());
    }
}
