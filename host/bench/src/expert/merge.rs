//! The merge: the tables are judged and gathered, and only what cannot be refused any more is written.

use super::f_of;
use super::gather::{gather, Row, MOST_TABLES};
use super::image::{judged, Header, ACCESS, BUFFER, HEADER, MOST_ROWS, ROW};
use super::insert::head_of;
use super::number::{BAD_TABLE, SMALL_BUFFER, WRONG_TABLES};
use super::settle::settle;

/// A table in the run: where it begins, and its header.
#[derive(Clone, Copy)]
pub struct Table {
    pub at: usize,
    pub header: Header,
}

/// Merges the images laid end to end in a run, and returns the number.
pub fn merge(run: &[u8], view: u32, out: &mut [u8]) -> u8 {
    if out.len() < BUFFER {
        return SMALL_BUFFER;
    }
    let mut rows = [Row::default(); MOST_ROWS];
    match gathered(run, view, &mut rows) {
        Ok((n, count)) => {
            let rows = &mut rows[..count];
            settle(run, rows);
            write(run, rows, (n, view), out);
            0
        }
        Err(number) => number,
    }
}

/// n, and how many rows are to be merged.
fn gathered(run: &[u8], view: u32, rows: &mut [Row; MOST_ROWS]) -> Result<(u8, usize), u8> {
    let (tables, count) = tables_of(run).ok_or(BAD_TABLE)?;
    let n = match tables[0] {
        Some(first) => first.header.n,
        None => return Err(BAD_TABLE),
    };
    let f = f_of(n).ok_or(BAD_TABLE)?;
    if count != f as usize + 1 || !are_right(&tables, n, view) {
        return Err(WRONG_TABLES);
    }
    // f half, rounded up, plus one.
    let agreement = (f + 1) / 2 + 1;
    Ok((n, gather(run, &tables, agreement, rows)?))
}

/// The first tables of the run and how many it has, if it is whole images.
fn tables_of(run: &[u8]) -> Option<([Option<Table>; MOST_TABLES], usize)> {
    let mut tables = [None; MOST_TABLES];
    let (mut at, mut count) = (0, 0);
    while count == 0 || at < run.len() {
        let header = judged(&run[at..])?;
        if let Some(table) = tables.get_mut(count) {
            *table = Some(Table { at, header });
        }
        at += header.length;
        count += 1;
    }
    Some((tables, count))
}

/// Whether different boxes of a group of n promised the view.
fn are_right(tables: &[Option<Table>; MOST_TABLES], n: u8, view: u32) -> bool {
    let mut boxes = 0u8;
    tables.iter().flatten().all(|Table { header, .. }| {
        let own_bit = 1 << (header.box_number & 7);
        let is_new = boxes & own_bit == 0;
        boxes |= own_bit;
        is_new && header.n == n && header.is_changing && header.promised == view
    })
}

/// Bodies that follow one another in the run are copied together.
fn write(run: &[u8], rows: &[Row], (n, view): (u8, u32), out: &mut [u8]) {
    let (heads, bodies) = out[HEADER..].split_at_mut(ROW * rows.len());
    let first_body = HEADER + ROW * rows.len();
    let (mut from, mut to, mut written) = (0, 0, 0);
    for (head, row) in heads.chunks_exact_mut(ROW).zip(rows) {
        let at = row.body as usize;
        if at != to {
            bodies[written..written + to - from].copy_from_slice(&run[from..to]);
            written += to - from;
            from = at;
        }
        to = at + ACCESS * usize::from(row.reads + row.writes);
        let offset = first_body + written + at - from;
        head.copy_from_slice(&head_of(row.stamp, row.retry, row.word(offset)));
    }
    bodies[written..written + to - from].copy_from_slice(&run[from..to]);
    let length = first_body + written + to - from;
    write_header(out, (n, view), rows.len(), length);
}

/// "The image is normal, view v, box v mod n, start rows equal to rows."
fn write_header(out: &mut [u8], (n, view): (u8, u32), rows: usize, length: usize) {
    let box_number = (view % u32::from(n)) as u8;
    out[..4].copy_from_slice(&[1, box_number, n, 0]);
    let numbers = [rows as u32, view, view, rows as u32, length as u32];
    for (place, number) in out[4..HEADER].chunks_exact_mut(4).zip(numbers) {
        place.copy_from_slice(&number.to_be_bytes());
    }
}
