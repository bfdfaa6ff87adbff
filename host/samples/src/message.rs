//! Messages put together byte by byte, apart from the second program. Nothing here keeps a rule.

use crate::{Access, Dice, Row};

/// "1 propose prepare: kind, stamp, two counts, body."
pub fn propose_prepare(row: &Row) -> Vec<u8> {
    let stamp = row.stamp.to_be_bytes();
    [&[1], &stamp[..], &counts(row), &row.body()].concat()
}

/// "2 finalise prepare: kind, stamp, view 4, result 1 to 4, retry stamp"
pub fn finalise_prepare(stamp: u64, view: u32, (result, retry): (u8, u64)) -> Vec<u8> {
    let (stamp, view, retry) = (stamp.to_be_bytes(), view.to_be_bytes(), retry.to_be_bytes());
    [&[2], &stamp[..], &view, &[result], &retry].concat()
}

/// "3 propose outcome: kind, stamp, 1 commit or 2 abort, counts, body."
pub fn propose_outcome(row: &Row, verdict: u8) -> Vec<u8> {
    let stamp = row.stamp.to_be_bytes();
    [&[3], &stamp[..], &[verdict], &counts(row), &row.body()].concat()
}

/// "4 finalise outcome: kind, stamp, view 4, 1 or 2."
pub fn finalise_outcome(stamp: u64, view: u32, verdict: u8) -> Vec<u8> {
    let (stamp, view) = (stamp.to_be_bytes(), view.to_be_bytes());
    [&[4], &stamp[..], &view, &[verdict]].concat()
}

/// "5 change view: kind, v 4."
pub fn change_view(view: u32) -> Vec<u8> {
    [&[5], &view.to_be_bytes()[..]].concat()
}

/// "6 start view: kind, v 4, image."
pub fn start_view(view: u32, image: &[u8]) -> Vec<u8> {
    [&[6], &view.to_be_bytes()[..], image].concat()
}

/// "7 read: kind, stamp, register."
pub fn read(stamp: u64, register: u8) -> Vec<u8> {
    [&[7], &stamp.to_be_bytes()[..], &[register]].concat()
}

fn counts(row: &Row) -> [u8; 2] {
    [row.reads.len() as u8, row.writes.len() as u8]
}

/// A row with the same stamp and another body by the rules.
pub fn with_other_body(dice: &mut Dice, row: &Row) -> Row {
    let mut other = row.clone();
    match (dice.index(3), &mut other.reads[..], &mut other.writes[..]) {
        // The same accesses, divided otherwise; a read's version may be a write's value.
        (0, [_, ..], []) => other.writes.push(other.reads.pop().expect("a read")),
        // A read more or a read less, a write more or a write less.
        (0, [], _) => other.reads.push(access(0, 0)),
        (0, _, [_, ..]) => drop(other.writes.pop()),
        (1, [read, ..], _) if row.stamp > 1 => read.number = (read.number + 1) % row.stamp,
        (_, _, [.., write]) => write.number ^= 1 << dice.below(64),
        (_, [.., read], []) if read.register < 63 => read.register += 1,
        _ => other.writes = vec![access(63, 0)],
    }
    other
}

fn access(register: u8, number: u64) -> Access {
    Access { register, number }
}

/// The image with every prepare final and every outcome done, as the view begins with it.
pub fn settled(image: &[u8], view: u32) -> Vec<u8> {
    let mut image = image.to_vec();
    let rows = image[4..8].to_vec();
    let n = u32::from(image[2]);
    image[1] = (view % n) as u8;
    image[3] = 0;
    image[8..12].copy_from_slice(&view.to_be_bytes());
    image[12..16].copy_from_slice(&view.to_be_bytes());
    image[16..20].copy_from_slice(&rows);
    let rows = u32::from_be_bytes(rows.try_into().expect("four bytes")) as usize;
    for row in image[24..].chunks_exact_mut(24).take(rows) {
        row[22] += if matches!(row[22], 1..=4) { 4 } else { 0 };
        row[23] += if matches!(row[23], 1 | 2) { 2 } else { 0 };
    }
    image
}

/// Breaks a rule of a message: its length, its stamp, its body, its register or its code.
pub fn spoiled(dice: &mut Dice, message: &[u8]) -> Vec<u8> {
    let mut message = message.to_vec();
    let kind = message[0];
    match (dice.index(5), kind) {
        (0, _) => drop(message.pop()),
        (1, 1..=4 | 7) => {
            let stamp: u64 = dice.one_of(&[0, 1 << 48, 1 << 63, u64::MAX]);
            message[1..9].copy_from_slice(&stamp.to_be_bytes());
        }
        (2, 1) => message[9 + dice.index(2)] = 5,
        (2, 3) => message[10 + dice.index(2)] = 5,
        (3, 1) => message[11] = dice.one_of(&[64, 255]),
        (3, 3) => message[12] = dice.one_of(&[64, 255]),
        (4, 3) => message[9] = dice.one_of(&[0, 3, 4]),
        (2, 2 | 4) => message[13] = dice.one_of(&[0, 5, 6, 255]),
        (3, 2) => message[14] ^= 1,
        (2, 6) => message[5] = dice.one_of(&[0, 2]),
        (3, 6) => message[7] = dice.one_of(&[0, 4, 6, 8]),
        (2, 7) => message[9] = dice.one_of(&[64, 255]),
        _ => message.push(dice.byte()),
    }
    message
}
