//! Replies, which no call of the library judges: good are those that some box gives, and no others.

use super::Met;
use crate::common::boxes::settled;
use crate::common::{fresh, History};
use samples::{message as make, Access, Dice, Row, Table, TABLE_BYTES};
use sprondilu::wrong;

#[test]
fn every_reply_of_the_second_program_is_good() {
    let mut kinds = [0; 8];
    let mut numbers = [0; 12];
    for seed in 1..150 {
        let mut history = History::seeded(seed);
        for _ in 0..60 {
            let message = history.message();
            let (number, reply) = history.answer(&message);
            assert_eq!(wrong::reply::reply(&reply), Ok(()), "{:02x?}", reply);
            kinds[usize::from(reply[1])] += 1;
            numbers[usize::from(number)] += 1;
        }
    }
    assert!(kinds.iter().all(|times| *times > 100), "{:?}", kinds);
    assert!(
        numbers[3..11].iter().all(|times| *times > 20),
        "{:?}",
        numbers
    );
}

fn wide(reply: &[u8], place: usize) -> u64 {
    u64::from_be_bytes(reply[place..place + 8].try_into().expect("eight bytes"))
}

/// The row of a box that gives this reply to a message about a transaction, or to a read of register 5.
fn row_for(reply: &[u8]) -> Row {
    let (kind, state) = (reply[1], reply[3]);
    let (stamp, value) = (wide(reply, 8), wide(reply, 16));
    let write = Access {
        register: 5,
        number: value,
    };
    let about_prepare = kind == 1 || kind == 2;
    Row {
        stamp,
        retry: if about_prepare { value } else { 0 },
        reads: Vec::new(),
        writes: vec![write],
        prepare: if about_prepare { state } else { 0 },
        outcome: match kind {
            1 | 2 => 0,
            3 | 4 => state,
            _ => 3,
        },
    }
}

/// A table and a message to which a box gives this reply, if it is one numbered 0 that a box gives.
fn asked_for(reply: &[u8]) -> (Table, Vec<u8>) {
    let (kind, state) = (reply[1], reply[3]);
    let (view, stamp) = (wide(reply, 0) as u32, wide(reply, 8));
    let row = row_for(reply);
    let message = match kind {
        1 => make::propose_prepare(&row),
        2 => make::finalise_prepare(stamp, view, (state.wrapping_sub(4), wide(reply, 16))),
        3 => make::propose_outcome(&row, 2 - state % 2),
        4 => make::finalise_outcome(stamp, view, 2 - state % 2),
        5 => make::change_view(stamp as u32),
        6 => make::start_view(view, &settled(&fresh(7, 0), view)),
        _ => make::read(if stamp == 0 { 1 } else { stamp }, 5),
    };
    let is_held = kind < 5 || (kind == 7 && stamp != 0);
    let own_view = if kind == 6 { 0 } else { view };
    let table = Table {
        box_number: reply[2],
        n: 7,
        mode: 0,
        view: own_view,
        promised: own_view,
        start_rows: 0,
        rows: if is_held { vec![row] } else { Vec::new() },
    };
    (table, message)
}

/// Whether a box gives this reply, by the second program.
fn is_given(reply: &[u8]) -> bool {
    if reply.len() != 24 {
        return false;
    }
    if reply[0] != 0 {
        return (2..=10).contains(&reply[0]) && reply[1..].iter().all(|byte| *byte == 0);
    }
    let (table, message) = asked_for(reply);
    let mut buffer = table.image();
    buffer.resize(TABLE_BYTES, 0);
    let mut given = [0; 24];
    reference::answer(&mut buffer, &message, &mut given);
    given == reply
}

/// Replies with bytes changed: good or not, as some box gives them or none.
#[test]
fn a_reply_is_good_if_some_box_gives_it() {
    let mut met: Vec<Met> = (0..8).map(|_| Met::default()).collect();
    let mut dice = Dice::seeded(301);
    for seed in 1..60 {
        let mut history = History::seeded(seed);
        for _ in 0..40 {
            let message = history.message();
            let (_, reply) = history.answer(&message);
            for _ in 0..12 {
                let mut reply = reply.clone();
                for _ in 0..1 + dice.index(2) {
                    let place = dice.one_of(&[0, 1, 2, 3, 3, 3, 4, 7, 8, 9, 10, 15, 16, 18, 23]);
                    reply[place] = dice.one_of(&[0, 0, 1, 2, 3, 4, 5, 6, 7, 8, 9, 255]);
                }
                let found = wrong::reply::reply(&reply);
                assert_eq!(
                    found.is_ok(),
                    is_given(&reply),
                    "{:?}: {:02x?}",
                    found,
                    reply
                );
                met[usize::from(reply[1]).min(7)].count(found.is_ok());
            }
        }
    }
    met.iter().for_each(|met| met.assert_at_least(200, 200));
}

/// Kind, state, view, stamp and value of replies that no box gives, with the byte at which they are wrong.
const BAD: [([u8; 5], usize); 23] = [
    ([0, 0, 0, 0, 0], 1),
    ([8, 0, 0, 0, 0], 1),
    ([1, 0, 0, 9, 0], 3),
    ([1, 9, 0, 9, 0], 3),
    ([1, 1, 0, 0, 0], 8),
    ([1, 1, 0, 9, 1], 16),
    ([1, 4, 0, 9, 0], 16),
    ([2, 4, 0, 9, 9], 3),
    ([2, 8, 0, 9, 0], 16),
    ([3, 0, 0, 9, 0], 3),
    ([3, 5, 0, 9, 0], 3),
    ([3, 1, 0, 9, 1], 16),
    ([4, 2, 0, 9, 0], 3),
    ([4, 3, 0, 0, 0], 8),
    ([5, 1, 0, 9, 0], 3),
    ([5, 0, 9, 9, 0], 8),
    ([5, 0, 0, 9, 1], 16),
    ([6, 1, 1, 0, 0], 3),
    ([6, 0, 0, 0, 0], 4),
    ([6, 0, 1, 1, 0], 8),
    ([6, 0, 1, 0, 1], 16),
    ([7, 1, 0, 9, 0], 3),
    ([7, 0, 0, 0, 1], 16),
];

fn reply([kind, state, view, stamp, value]: [u8; 5]) -> Vec<u8> {
    let mut reply = vec![0; 24];
    reply[1] = kind;
    (reply[3], reply[7], reply[15], reply[23]) = (state, view, stamp, value);
    reply
}

#[test]
fn bad_replies_are_wrong_where_they_are() {
    let never_written = reply([7, 0, 0, 0, 0]);
    let mut cases = BAD.map(|(fields, byte)| (reply(fields), byte)).to_vec();
    cases.push((never_written[..23].to_vec(), 23));
    cases.push((Vec::new(), 0));
    cases.push(([never_written.clone(), vec![0]].concat(), 24));
    for (reply, byte) in cases {
        let found = wrong::reply::reply(&reply).expect_err("no box gives it");
        assert_eq!(found.byte, byte, "{:?}: {:02x?}", found, reply);
        assert!(!is_given(&reply), "{:02x?}", reply);
    }
    let boxes = [0, 6, 7, 255].map(|number| {
        let mut reply = never_written.clone();
        reply[2] = number;
        wrong::reply::reply(&reply).map_err(|wrong| wrong.byte)
    });
    assert_eq!(boxes, [Ok(()), Ok(()), Err(2), Err(2)]);
}
