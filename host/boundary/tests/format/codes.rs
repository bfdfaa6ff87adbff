//! The codes: each byte is tried where it stands, and both programs take it if and only if the page has it. The second program
//! says what it took it for, which is the name on the page.

use crate::agreed;
use crate::page::Page;
use crate::places;
use crate::words;
use crate::{same, Checked};
use reference::numbers::ORDER;
use reference::{Counted, Message, Number};
use samples::{message, Access, Record, Row, Table, MOST_ROWS, TABLE_BYTES};
use std::fs;
use std::path::Path;

const STAMP: u64 = 10;

/// What a byte stands for, where both programs take it; nothing where both refuse it.
type Named = fn(&Page, u8) -> Checked<Option<String>>;

/// The tables of codes, and how a code of each is tried.
pub const TABLES: [(&str, Named); 9] = [
    ("Numbers", number),
    ("Kinds of messages", kind),
    ("Modes", mode),
    ("Prepare bytes", prepare),
    ("Outcome bytes", outcome_byte),
    ("Results", result),
    ("Commit and abort", outcome),
    ("Tentative and final", finality),
    ("Kinds of a count's answer", kind_of_answer),
];

pub fn all(page: &Page) -> Checked {
    TABLES
        .iter()
        .try_for_each(|(heading, named)| check(page, heading, *named))
}

pub fn check(page: &Page, heading: &str, named: Named) -> Checked {
    let codes = page.codes(heading)?;
    for byte in 0..=255 {
        let mut listed = codes.iter().filter(|code| code.code == u64::from(byte));
        let name = listed.next().map(|code| code.name.to_string());
        let what = format!("{}, code {}", heading, byte);
        same(&what, name, named(page, byte)?)?;
        same(&what, listed.count(), 0)?;
    }
    same(
        "codes of one byte",
        codes.iter().all(|code| code.code < 256),
        true,
    )?;
    codes.iter().try_for_each(|code| match code.in_c {
        Some(name) => in_the_header(name, code.code),
        None => Ok(()),
    })
}

/// That the C header has this name for the number.
pub fn in_the_header(name: &str, code: u64) -> Checked {
    let header = Path::new(env!("CARGO_MANIFEST_DIR")).join("../../include/sprondilu.h");
    let header = fs::read_to_string(header).expect("the C header");
    let line = format!("#define {} {}", name.trim_matches('`'), code);
    match header.lines().any(|it| it == line) {
        true => Ok(()),
        false => Err(format!("the C header has no line {}", line)),
    }
}

/// The order of the numbers, which a sentence of the page has.
pub fn order(page: &Page) -> Checked {
    let codes: Vec<String> = ORDER.iter().map(|it| it.code().to_string()).collect();
    let sentence = format!(
        "The first that applies wins, in this order: {}.",
        codes.join(", ")
    );
    let lines = &page.section("Numbers")?.lines;
    match lines.iter().any(|line| *line == sentence) {
        true => Ok(()),
        false => Err(format!("the page does not say: {}", sentence)),
    }
}

/// One write of register 5, tentative OK with a commit noted.
fn row() -> Row {
    let write = Access {
        register: 5,
        number: 7,
    };
    Row {
        prepare: 1,
        outcome: 1,
        ..Row::of(STAMP, Vec::new(), vec![write])
    }
}

/// The image of a table, if both programs take one of these, as the second one reads it.
fn taken(tables: &[Table]) -> Checked<Option<reference::Table>> {
    for table in tables {
        let image = table.image();
        if agreed::table_number(&image)? == 0 {
            return Ok(reference::Table::parse(&image).map(|(table, _)| table));
        }
    }
    Ok(None)
}

/// The row of the image that is taken.
fn taken_row(rows: &[Row]) -> Checked<Option<reference::Row>> {
    let table = |row: &Row| Table::in_view_0(vec![row.clone()]);
    let tables: Vec<Table> = rows.iter().map(table).collect();
    let taken = taken(&tables)?;
    Ok(taken.and_then(|table| table.rows.get(&STAMP).cloned()))
}

/// The first of these messages that both programs take, as the second one reads it.
fn taken_message(messages: &[Vec<u8>]) -> Checked<Option<Message>> {
    let held = Table::in_view_0(vec![row()]).image();
    for message in messages {
        if agreed::answered(&held, message)?.number != 3 {
            return Ok(Message::parse(message));
        }
    }
    Ok(None)
}

fn mode(_: &Page, byte: u8) -> Checked<Option<String>> {
    let table = |promised| Table {
        mode: byte,
        promised,
        ..Table::in_view_0(Vec::new())
    };
    let taken = taken(&[table(0), table(1)])?;
    Ok(taken.map(|table| words::mode(table.mode).to_string()))
}

fn prepare(_: &Page, byte: u8) -> Checked<Option<String>> {
    let row = |retry| Row {
        prepare: byte,
        retry,
        ..row()
    };
    let taken = taken_row(&[row(0), row(3)])?;
    Ok(taken.map(|row| words::prepare_name(row.prepare)))
}

fn outcome_byte(_: &Page, byte: u8) -> Checked<Option<String>> {
    let row = Row {
        outcome: byte,
        ..row()
    };
    let taken = taken_row(&[row])?;
    Ok(taken.map(|row| words::outcome_name(row.outcome)))
}

/// In message 2, and in a counted reply and a record just so.
fn result(_: &Page, byte: u8) -> Checked<Option<String>> {
    let asked = |retry| message::finalise_prepare(STAMP, 0, (byte, retry));
    let name = match taken_message(&[asked(0), asked(3)])? {
        Some(Message::FinalisePrepare { result, .. }) => Some(words::result_name(result)),
        _ => None,
    };
    let counted = taken_reply(&[reply((byte, 0), 0), reply((byte, 3), 0)])?;
    let heard = counted.map(|reply| words::result_name(reply.result));
    same("in a reply", heard, name)?;
    Ok(name.map(str::to_string))
}

/// In message 3, and in message 4 just so.
fn outcome(_: &Page, byte: u8) -> Checked<Option<String>> {
    let proposed = match taken_message(&[message::propose_outcome(&row(), byte)])? {
        Some(Message::ProposeOutcome { outcome, .. }) => Some(words::outcome(outcome)),
        _ => None,
    };
    let finalised = match taken_message(&[message::finalise_outcome(STAMP, 0, byte)])? {
        Some(Message::FinaliseOutcome { outcome, .. }) => Some(words::outcome(outcome)),
        _ => None,
    };
    same("in message 4", finalised, proposed)?;
    Ok(proposed.map(str::to_string))
}

fn reply(result: (u8, u64), is_final: u8) -> Record {
    Record {
        box_number: 0,
        view: 0,
        result,
        is_final,
    }
}

/// The first of these replies that both programs count, as the second one reads it.
fn taken_reply(replies: &[Record]) -> Checked<Option<Counted>> {
    for reply in replies {
        if agreed::counted(3, &reply.bytes())? == 0 {
            return Ok(Counted::parse(&reply.bytes()));
        }
    }
    Ok(None)
}

fn finality(_: &Page, byte: u8) -> Checked<Option<String>> {
    let taken = taken_reply(&[reply((1, 0), byte)])?;
    Ok(taken.map(|reply| words::finality(reply.is_final).to_string()))
}

/// A message of each kind.
fn messages() -> [Vec<u8>; 7] {
    let begun = message::settled(&Table::in_view_0(vec![row()]).image(), 1);
    [
        message::propose_prepare(&row()),
        message::finalise_prepare(STAMP, 0, (1, 0)),
        message::propose_outcome(&row(), 1),
        message::finalise_outcome(STAMP, 0, 1),
        message::change_view(1),
        message::start_view(1, &begun),
        message::read(STAMP, 5),
    ]
}

/// The byte before what follows the kind in a message of each kind.
fn kind(_: &Page, byte: u8) -> Checked<Option<String>> {
    let with_it = |message: &Vec<u8>| [&[byte], &message[1..]].concat();
    let messages: Vec<Vec<u8>> = messages().iter().map(with_it).collect();
    let taken = taken_message(&messages)?;
    Ok(taken.map(|message| words::kind(&message).to_string()))
}

/// The kind of answer that one of these counts has in the bits where the page has it.
fn kind_of_answer(page: &Page, byte: u8) -> Checked<Option<String>> {
    for heard in 1..=3_u8 {
        let reply = |box_number| Record {
            box_number,
            ..reply((1, 0), 0)
        };
        let bytes: Vec<u8> = (0..heard).flat_map(|it| reply(it).bytes()).collect();
        let word = agreed::counted(3, &bytes)?;
        let decided = reference::count::count_bytes(3, &bytes);
        if places::bits(page, "Answer of the count", "kind", word)? == u64::from(byte) {
            let kind = decided.map(|it| words::decision_kind(it).to_string());
            return Ok(kind.ok());
        }
    }
    Ok(None)
}

/// The number that some call ends with.
fn number(_: &Page, byte: u8) -> Checked<Option<String>> {
    let mut numbers = ORDER.iter().chain(&[Number::Done]);
    let number = numbers.find(|number| number.code() == byte);
    match number {
        Some(number) if given(*number)? == byte => Ok(Some(words::number(*number))),
        Some(number) => Err(format!("no call ended with {:?}", number)),
        None => Ok(None),
    }
}

/// What both programs give where this number is to be given.
fn given(number: Number) -> Checked<u8> {
    let full = Table::in_view_0(
        (1..=MOST_ROWS as u64)
            .map(|it| Row { stamp: it, ..row() })
            .collect(),
    );
    let changing = Table {
        mode: 1,
        promised: 1,
        ..Table::in_view_0(Vec::new())
    };
    let held = Table::in_view_0(vec![row()]);
    let other = Row {
        writes: Vec::new(),
        reads: row().writes,
        ..row()
    };
    let new = Row {
        stamp: 1_000,
        ..row()
    };
    let asked = |table: &Table, message: &[u8]| agreed::answered(&table.image(), message);
    let answered = match number {
        Number::Done => asked(&held, &message::read(STAMP, 5)),
        Number::SmallBuffer => return Ok(agreed::fresh(3, 0, TABLE_BYTES - 1)?.0),
        Number::BadTable => agreed::answered(&[2; 24], &message::read(STAMP, 5)),
        Number::BadMessage => asked(&held, &[]),
        Number::Changing => asked(&changing, &message::read(STAMP, 5)),
        Number::OtherBody => asked(&held, &message::propose_prepare(&other)),
        Number::Contradiction => asked(&held, &message::propose_outcome(&row(), 2)),
        Number::Full => asked(&full, &message::propose_prepare(&new)),
        Number::Unknown => asked(&held, &message::finalise_prepare(9, 0, (1, 0))),
        Number::OtherView => asked(&held, &message::finalise_outcome(STAMP, 1, 1)),
        Number::OldView => asked(&held, &message::change_view(0)),
        Number::WrongTables => return Ok(agreed::merged(&held.image(), 1, TABLE_BYTES)?.0),
    };
    Ok(answered?.number)
}
