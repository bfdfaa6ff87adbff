//! A box's answer to one message as the proved library gives it: everything is judged and changed where it lies.

use super::check::{newest, proposal_check, Transaction};
use super::insert::add;
use super::message::{self, Message};
use super::search::Search;
use super::valid::{image_length, Header, Row, MOST_ROWS};
use super::{put_u32, put_u64, HEADER_LENGTH, ROW_LENGTH};

pub(super) const TABLE_BYTES: usize = 49_176;
const REPLY_LENGTH: usize = 24;

/// What a reply says of a message that was done, beside its kind and the box.
struct Done {
    state: u8,
    stamp: u64,
    value: u64,
}

/// A number, if the message is refused.
type Answered = Result<Done, u8>;

/// The table changed, the reply written; returns the number.
pub fn answer<S: Search>(table: &mut [u8], message: &[u8], reply: &mut [u8]) -> u8 {
    if table.len() < TABLE_BYTES || reply.len() < REPLY_LENGTH {
        return 1;
    }
    let answered = judged::<S>(table, message);
    let reply = &mut reply[..REPLY_LENGTH];
    reply.fill(0);
    match answered {
        Ok(done) => {
            write(reply, message[0], &Header::read(table), &done);
            0
        }
        Err(number) => {
            reply[0] = number;
            number
        }
    }
}

fn write(reply: &mut [u8], kind: u8, header: &Header, done: &Done) {
    reply[1] = kind;
    reply[2] = header.box_number;
    reply[3] = done.state;
    put_u32(reply, 4, header.view);
    put_u64(reply, 8, done.stamp);
    put_u64(reply, 16, done.value);
}

fn judged<S: Search>(table: &mut [u8], message: &[u8]) -> Answered {
    image_length(table).ok_or(2)?;
    let header = Header::read(table);
    match message::read(message, header.n).ok_or(3)? {
        Message::ChangeView { view } => change_view(table, &header, view),
        Message::StartView { view, image } => start_view(table, &header, view, image),
        _ if header.mode == 1 => Err(4),
        Message::ProposePrepare { new } => propose_prepare::<S>(table, &header, &new),
        Message::FinalisePrepare {
            stamp,
            view,
            result,
            retry,
        } => finalise_prepare::<S>(table, &header, (stamp, view), (result, retry)),
        Message::ProposeOutcome { verdict, new } => {
            propose_outcome::<S>(table, &header, verdict, &new)
        }
        Message::FinaliseOutcome {
            stamp,
            view,
            verdict,
        } => finalise_outcome::<S>(table, &header, (stamp, view), verdict),
        Message::ReadRegister { stamp, register } => {
            let (stamp, value) = newest(table, header.rows as usize, stamp, register);
            let state = 0;
            Ok(Done {
                state,
                stamp,
                value,
            })
        }
    }
}

/// What messages 1 and 3 find: the row that holds the transaction, or else the index for a new row.
type Found = Result<(usize, Row), usize>;

/// Messages 1 and 3: the row of the stamp, if it is held with this body, or the place of a new one, if there is room.
fn to_propose<S: Search>(table: &[u8], header: &Header, new: &Transaction) -> Result<Found, u8> {
    match S::find(table, header.rows, new.stamp) {
        Ok(index) => {
            let row = Row::read(table, index);
            let same = (row.reads, row.writes) == (new.reads, new.writes);
            if !same || row.body(table) != new.body {
                return Err(5);
            }
            Ok(Ok((index, row)))
        }
        Err(_) if !has_room(header) => Err(7),
        Err(index) => Ok(Err(index)),
    }
}

/// Whether a new stamp finds room: the rows added since the view began stay below their share of what the start rows leave.
fn has_room(header: &Header) -> bool {
    if header.start_rows >= MOST_ROWS {
        return false;
    }
    let quorum = u32::from(header.n / 2) + 1;
    header.rows - header.start_rows < (MOST_ROWS - header.start_rows) / quorum
}

/// Messages 2 and 4: the row of the stamp, in a box that is in that view.
fn to_finalise<S: Search>(
    table: &[u8],
    header: &Header,
    (stamp, view): (u64, u32),
) -> Result<(usize, Row), u8> {
    if view != header.view {
        return Err(9);
    }
    let index = S::find(table, header.rows, stamp).map_err(|_| 8)?;
    Ok((index, Row::read(table, index)))
}

fn propose_prepare<S: Search>(table: &mut [u8], header: &Header, new: &Transaction) -> Answered {
    let (prepare, retry) = match to_propose::<S>(table, header, new)? {
        Ok((_, row)) if row.prepare != 0 => (row.prepare, row.retry),
        Ok((index, row)) => {
            let prepare = if matches!(row.outcome, 1 | 3) { 1 } else { 2 };
            put_prepare(table, index, prepare, 0);
            (prepare, 0)
        }
        Err(index) => {
            let (code, retry) = proposal_check(table, header.rows as usize, new);
            add_row(table, index, new, (code, retry), 0);
            (code, retry)
        }
    };
    Ok(Done {
        state: prepare,
        stamp: new.stamp,
        value: retry,
    })
}

fn finalise_prepare<S: Search>(
    table: &mut [u8],
    header: &Header,
    which: (u64, u32),
    (result, retry): (u8, u64),
) -> Answered {
    let (index, row) = to_finalise::<S>(table, header, which)?;
    if row.prepare == 0 {
        return Err(8);
    }
    if row.prepare > 4 && (row.prepare, row.retry) != (result + 4, retry) {
        return Err(6);
    }
    put_prepare(table, index, result + 4, retry);
    Ok(Done {
        state: result + 4,
        stamp: row.stamp,
        value: retry,
    })
}

fn propose_outcome<S: Search>(
    table: &mut [u8],
    header: &Header,
    verdict: u8,
    new: &Transaction,
) -> Answered {
    let outcome = match to_propose::<S>(table, header, new)? {
        Ok((_, row)) if is_opposite(row.outcome, verdict) => return Err(6),
        Ok((_, row)) if row.outcome != 0 => row.outcome,
        Ok((index, _)) => {
            put_outcome(table, index, verdict);
            verdict
        }
        Err(index) => {
            add_row(table, index, new, (0, 0), verdict);
            verdict
        }
    };
    Ok(Done {
        state: outcome,
        stamp: new.stamp,
        value: 0,
    })
}

fn finalise_outcome<S: Search>(
    table: &mut [u8],
    header: &Header,
    which: (u64, u32),
    verdict: u8,
) -> Answered {
    let (index, row) = to_finalise::<S>(table, header, which)?;
    if row.outcome == 0 {
        return Err(8);
    }
    if is_opposite(row.outcome, verdict) {
        return Err(6);
    }
    put_outcome(table, index, verdict + 2);
    Ok(Done {
        state: verdict + 2,
        stamp: row.stamp,
        value: 0,
    })
}

fn is_opposite(outcome: u8, verdict: u8) -> bool {
    outcome != 0 && outcome != verdict && outcome != verdict + 2
}

fn change_view(table: &mut [u8], header: &Header, view: u32) -> Answered {
    if view <= header.promised {
        return Err(10);
    }
    table[3] = 1;
    put_u32(table, 12, view);
    Ok(Done {
        state: 0,
        stamp: u64::from(view),
        value: 0,
    })
}

fn start_view(table: &mut [u8], header: &Header, view: u32, image: &[u8]) -> Answered {
    if view < header.promised || view <= header.view {
        return Err(10);
    }
    let (taken, rest) = table.split_at_mut(image.len());
    taken.copy_from_slice(image);
    taken[1] = header.box_number;
    let given_up = (header.length as usize).saturating_sub(image.len());
    rest[..given_up].fill(0);
    Ok(Done {
        state: 0,
        stamp: 0,
        value: 0,
    })
}

pub(super) fn put_prepare(table: &mut [u8], index: usize, prepare: u8, retry: u64) {
    let at = HEADER_LENGTH + ROW_LENGTH * index;
    put_u64(table, at + 8, retry);
    table[at + 22] = prepare;
}

fn put_outcome(table: &mut [u8], index: usize, outcome: u8) {
    table[HEADER_LENGTH + ROW_LENGTH * index + 23] = outcome;
}

fn add_row(
    table: &mut [u8],
    index: usize,
    new: &Transaction,
    (prepare, retry): (u8, u64),
    outcome: u8,
) {
    let mut row = [0; ROW_LENGTH];
    put_u64(&mut row, 0, new.stamp);
    put_u64(&mut row, 8, retry);
    row[20..].copy_from_slice(&[new.reads, new.writes, prepare, outcome]);
    add(table, index, &row, new.body);
}

#[cfg(test)]
mod tests {
    use super::super::search::{Halving, Walk};
    use super::{answer, TABLE_BYTES};
    use samples::message as make;
    use samples::room;
    use samples::{random, Dice, Row, Table, GREATEST_STAMP, MOST_ROWS};

    type Answer = fn(&mut [u8], &[u8], &mut [u8]) -> u8;

    /// The number for a message to a table in a buffer, on which both twins and the second program have to agree, as on
    /// every byte; and the result of a check, if one was made.
    fn answered(table: &[u8], message: &[u8], reply_length: usize) -> (u8, Option<u8>) {
        let lent = (table.to_vec(), vec![0xee; reply_length]);
        let mut by_second = lent.clone();
        let number = reference::answer(&mut by_second.0, message, &mut by_second.1);
        let twins: [Answer; 2] = [answer::<Halving>, answer::<Walk>];
        for (twin, answer) in twins.iter().enumerate() {
            let mut by_twin = lent.clone();
            let found = answer(&mut by_twin.0, message, &mut by_twin.1);
            assert_eq!(found, number, "twin {}: {:02x?}", twin, message);
            assert!(by_twin == by_second, "twin {}: {:02x?}", twin, message);
        }
        let is_checked = number == 0 && message[0] == 1 && by_second.0[4..8] != table[4..8];
        (number, is_checked.then(|| by_second.1[3]))
    }

    /// A message of any kind about a row, to a table of this view.
    fn message(dice: &mut Dice, table: &Table, row: &Row) -> Vec<u8> {
        let stamp = row.stamp.to_be_bytes();
        let view = dice.one_of(&[table.view, table.view, table.view, 0]);
        let view = view.to_be_bytes();
        let later = dice.one_of(&[table.promised.wrapping_add(1), table.promised, table.view]);
        let counts = [row.reads.len() as u8, row.writes.len() as u8];
        let verdict = [dice.one_of(&[1, 2])];
        let retry = row.stamp.to_be_bytes();
        match 1 + dice.index(7) {
            1 => [&[1], &stamp[..], &counts, &row.body()].concat(),
            2 if verdict == [1] => [&[2], &stamp[..], &view, &[4], &retry].concat(),
            2 => [&[2], &stamp[..], &view, &[1], &[0; 8]].concat(),
            3 => [&[3], &stamp[..], &verdict, &counts, &row.body()].concat(),
            4 => [&[4], &stamp[..], &view, &verdict].concat(),
            5 => [&[5], &later.to_be_bytes()[..]].concat(),
            6 => [&[6], &later.to_be_bytes()[..], &started(table, later)].concat(),
            _ => [&[7], &stamp[..], &[dice.one_of(&[0, 7, 63])]].concat(),
        }
    }

    /// The image of the table's rows with which a view begins.
    fn started(table: &Table, view: u32) -> Vec<u8> {
        let mut image = table.clone();
        image.box_number = (view % u32::from(table.n)) as u8;
        (image.mode, image.view, image.promised) = (0, view, view);
        for row in &mut image.rows {
            row.prepare += if (1..=4).contains(&row.prepare) { 4 } else { 0 };
            row.outcome += if (1..=2).contains(&row.outcome) { 2 } else { 0 };
        }
        image.rows.truncate(image.rows.len() - image.rows.len() % 2);
        image.start_rows = image.rows.len() as u32;
        image.image()
    }

    /// A table in a buffer and a message to it. Some have a byte changed, and some rows are of the table with another body.
    fn case(dice: &mut Dice, rows: usize) -> (Vec<u8>, Vec<u8>) {
        let table = random::table(dice, rows);
        let stamp = 1 + dice.below(GREATEST_STAMP);
        let held = &table.rows[dice.index(rows)];
        let stamp = dice.one_of(&[stamp, held.stamp]);
        let other = random::row(dice, stamp, (1, 2));
        let row = if dice.in_a_hundred(60) { held } else { &other };
        let mut message = message(dice, &table, row);
        let mut buffer = table.image();
        for bytes in [&mut message, &mut buffer] {
            let place = dice.index(bytes.len());
            bytes[place] ^= dice.one_of(&[0, 0, 0, 0, 0, 1, 255]);
        }
        buffer.resize(TABLE_BYTES, 0xee);
        (buffer, message)
    }

    #[test]
    fn both_twins_answer_as_the_second_program() {
        let mut dice = Dice::seeded(1);
        let (mut met, mut results) = ([0; 11], [0; 5]);
        for turn in 0..30_000 {
            let rows = match turn % 50 {
                49 => dice.one_of(&[MOST_ROWS - 1, MOST_ROWS]),
                _ => 1 + turn % 5,
            };
            let (buffer, message) = case(&mut dice, rows);
            let length = dice.one_of(&[23, 24, 25, 25, 25, 25]);
            let (number, result) = answered(&buffer, &message, length);
            met[usize::from(number)] += 1;
            results[usize::from(result.unwrap_or(0))] += 1;
            let short = &buffer[..TABLE_BYTES - 1];
            assert_eq!(answered(short, &message, 24), (1, None));
        }
        assert!(met.iter().all(|times| *times > 9), "{:?}", met);
        assert!(results.iter().all(|times| *times > 9), "{:?}", results);
    }

    /// Every table about the last row that there is room for, told of a stamp that it does not hold.
    #[test]
    fn both_twins_keep_room_as_the_second_program() {
        let mut dice = Dice::seeded(2);
        let (mut taken, mut refused) = (0, 0);
        for (n, start_rows, rows) in room::edges() {
            let (table, new) = room::table(&mut dice, n, start_rows, rows);
            let mut buffer = table.image();
            buffer.resize(TABLE_BYTES, 0xee);
            let (prepare, _) = answered(&buffer, &make::propose_prepare(&new), 24);
            let (outcome, _) = answered(&buffer, &make::propose_outcome(&new, 1), 24);
            assert_eq!(prepare, outcome);
            taken += u32::from(prepare == 0);
            refused += u32::from(prepare == 7);
        }
        assert!(taken > 30 && refused > 90, "{} and {}", taken, refused);
    }
}
