//! The three calls by the second program, which knows one box at a time: each box is lent its own table buffer and no other.

use samples::TABLE_BYTES;
use std::ops::Range;

/// Where the table buffer of a box stands among those of its group: what there is of it, if the lent buffer ends before
/// it does.
pub fn buffer_of(lent: usize, box_number: u8) -> Range<usize> {
    let from = TABLE_BYTES * usize::from(box_number);
    from.min(lent)..(from + TABLE_BYTES).min(lent)
}

/// 1 for want of room, 3 for a bad n; otherwise every box is fresh.
pub fn start_fresh(tables: &mut [u8], n: u8) -> u8 {
    if tables.len() < TABLE_BYTES * usize::from(n) {
        return 1;
    }
    if ![3, 5, 7].contains(&n) {
        return 3;
    }
    for box_number in 0..n {
        let part = buffer_of(tables.len(), box_number);
        assert_eq!(reference::fresh(&mut tables[part], n, box_number), 0);
    }
    0
}

/// The box answers by its own table buffer, which is too small where the lent buffer ends before it does.
pub fn arrive(tables: &mut [u8], box_number: u8, message: &[u8], reply: &mut [u8]) -> u8 {
    let part = buffer_of(tables.len(), box_number);
    reference::answer(&mut tables[part], message, reply)
}

/// 1 for want of room for a whole table buffer of each box, or for the output, and nothing is written then; otherwise the
/// merge of the images, which stay where they were laid.
pub fn merge_boxes(tables: &[u8], boxes: &[u8], view: u32, run: &mut [u8], out: &mut [u8]) -> u8 {
    if run.len() < TABLE_BYTES * boxes.len() || out.len() < TABLE_BYTES {
        return 1;
    }
    let image = |box_number: &u8| {
        let buffer = &tables[buffer_of(tables.len(), *box_number)];
        let (_, length) = reference::Table::parse(buffer)?;
        Some(&buffer[..length])
    };
    // No bytes, which is no run, if there is not an image of each.
    let images: Option<Vec<&[u8]>> = boxes.iter().map(image).collect();
    let laid = images.unwrap_or_default().concat();
    run[..laid.len()].copy_from_slice(&laid);
    reference::merge(&laid, view, out)
}
