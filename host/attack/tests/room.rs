//! The attack has teeth where room is asked for: boxes that keep it otherwise than document 02 has it.

mod common;
use attack::calls::LIBRARY;
use attack::Calls;
use common::{assert_found, found};
use reference::answer::answer_for;
use reference::{Message, Mode, Model, Table, VALLEY};

const MOST_ROWS: usize = 512;

/// Whether there is room for a new stamp, by f, the rows with which the view began, and the rows.
type Rule = fn(usize, usize, usize) -> bool;

/// Rules by the number that names them in a type, each with what is wrong about it.
const RULES: [(&str, Rule); 7] = [
    ("nothing", |f, start, rows| {
        rows - start < (MOST_ROWS - start) / (f + 1)
    }),
    ("512 rows alone", |_, _, _| true),
    ("a row more", |f, start, rows| {
        rows - start <= (MOST_ROWS - start) / (f + 1)
    }),
    ("a share of the whole table", |f, start, rows| {
        rows - start < MOST_ROWS / (f + 1)
    }),
    ("shared by f tables", |f, start, rows| {
        rows - start < (MOST_ROWS - start) / f
    }),
    ("rounded up", |f, start, rows| {
        rows - start < (MOST_ROWS - start + f) / (f + 1)
    }),
    ("start rows count as added", |f, start, rows| {
        rows < (MOST_ROWS - start) / (f + 1)
    }),
];

/// A box of this model says of no table of 512 rows that it is full.
const LARGE: Model = Model {
    rows: 1 << 20,
    buffer: VALLEY.buffer,
};

/// The table, if it is one that may take a new stamp, and if the message proposes one.
fn asked_for_room(table: &[u8], message: &[u8], reply: &[u8]) -> Option<Table> {
    if table.len() < VALLEY.buffer || reply.len() < 24 {
        return None;
    }
    let (held, _) = Table::parse(table)?;
    match Message::parse(message)? {
        Message::ProposePrepare { stamp, .. } | Message::ProposeOutcome { stamp, .. } => {
            let is_new = !held.rows.contains_key(&stamp);
            (is_new && held.mode == Mode::Normal).then_some(held)
        }
        _ => None,
    }
}

/// The library, but that a new stamp finds room by another rule, as long as there are bytes for its row.
fn answered_by(rule: Rule, table: &mut [u8], message: &[u8], reply: &mut [u8]) -> u64 {
    let asked = asked_for_room(table, message, reply);
    let before = table.to_vec();
    let word = boundary::answer_word(table, message, reply);
    let held = match asked {
        Some(held) => held,
        None => return word,
    };
    let (f, rows) = (usize::from(held.n / 2), held.rows.len());
    table.copy_from_slice(&before);
    let number = match rows < MOST_ROWS && rule(f, held.start_rows, rows) {
        true => answer_for(LARGE, table, message, reply).code(),
        false => {
            reply[..24].fill(0);
            reply[0] = 7;
            7
        }
    };
    word >> 16 << 16 | u64::from(number)
}

/// The library with a rule of its own.
fn keeping_room_by<const RULE: usize>() -> Calls {
    Calls {
        answer_word: |table, message, reply| answered_by(RULES[RULE].1, table, message, reply),
        ..LIBRARY
    }
}

#[test]
fn a_box_that_keeps_room_as_document_02_has_it_is_not_taken_for_faulty() {
    assert_eq!(found(keeping_room_by::<0>()), None);
}

#[test]
fn a_box_that_keeps_room_otherwise_is_found() {
    let faulty = [
        keeping_room_by::<1>(),
        keeping_room_by::<2>(),
        keeping_room_by::<3>(),
        keeping_room_by::<4>(),
        keeping_room_by::<5>(),
        keeping_room_by::<6>(),
    ];
    for ((fault, _), calls) in RULES[1..].iter().zip(faulty) {
        assert_found(fault, calls, Some("table"));
    }
}
