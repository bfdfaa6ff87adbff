//! The values that a field may have: both programs take each of them that was tried where all else fits, and refuse each
//! other one with the number that the page gives.

use crate::agreed;
use crate::layout::{little_endian, Layout};
use crate::page::Page;
use crate::sums::{Known, Set};
use crate::{same, Checked};
use samples::{message, Access, Record, Row, Table};

const STAMP: u64 = 0x0102_0304_0506;
const VIEW: u32 = 5;

/// A structure of the page, how it is made with a value in one field and all else so that it fits, how it is judged, and
/// which number refuses it.
pub struct Structure {
    pub heading: &'static str,
    known: Known<'static>,
    made: fn(&Layout, &str, u64) -> Checked<Vec<u8>>,
    judged: fn(&[u8]) -> Checked<u8>,
    refused_with: u8,
}

pub const STRUCTURES: [Structure; 14] = [
    asked("Stamp", stamp),
    table(
        "Header",
        &[("n", 7), ("rows", 3), ("view", 5), ("accesses", 6)],
        header,
    ),
    table("Row", &[("rows", 2), ("earlier", 2)], row),
    table("Read of a body", &[("stamp", STAMP as u128)], read),
    table("Write of a body", &[], write),
    asked("Message 1: propose prepare", message_1),
    asked("Message 2: finalise prepare", message_2),
    asked("Message 3: propose outcome", message_3),
    asked("Message 4: finalise outcome", message_4),
    asked("Message 5: change view", message_5),
    asked("Message 6: start view", message_6),
    asked("Message 7: read", message_7),
    Structure {
        heading: "Counted reply",
        known: &[("n", 7)],
        made: counted_reply,
        judged: |bytes| agreed::counted(7, bytes).map(|word| word as u8),
        refused_with: 3,
    },
    Structure {
        heading: "Record in C",
        known: &[("n", 7)],
        made: record,
        judged: |bytes| {
            let records = agreed::records_of(bytes)?;
            Ok(boundary::count_records(7, &records) as u8)
        },
        refused_with: 3,
    },
];

type Made = fn(&Layout, &str, u64) -> Checked<Vec<u8>>;

/// What stands in a table.
const fn table(heading: &'static str, known: Known<'static>, made: Made) -> Structure {
    Structure {
        heading,
        known,
        made,
        judged: as_a_table,
        refused_with: 2,
    }
}

/// What is a message.
const fn asked(heading: &'static str, made: Made) -> Structure {
    Structure {
        heading,
        known: &[],
        made,
        judged: as_a_message,
        refused_with: 3,
    }
}

/// What is no table is no image in message 6 either.
fn as_a_table(image: &[u8]) -> Checked<u8> {
    let number = agreed::table_number(image)?;
    if number == 2 {
        same(
            "message 6",
            as_a_message(&message::start_view(VIEW, image))?,
            3,
        )?;
    }
    Ok(number)
}

/// 3, or 0 for every other number: those are about the table that is held.
fn as_a_message(message: &[u8]) -> Checked<u8> {
    let held = Table::in_view_0(Vec::new()).image();
    let number = agreed::answered(&held, message)?.number;
    Ok(if number == 3 { 3 } else { 0 })
}

pub fn all(page: &Page) -> Checked {
    STRUCTURES
        .iter()
        .try_for_each(|structure| structure.check(page))
}

impl Structure {
    pub fn check(&self, page: &Page) -> Checked {
        let layout = page.layout(self.heading)?;
        for field in layout.numbers() {
            let set = Set::of(&field.values, self.known)?;
            let width = field.width(self.known)?;
            same(&field.values, set.fits(width), true)?;
            for value in set.tries(width) {
                let bytes = (self.made)(&layout, &field.name, value)?;
                let expected = if set.has(value) { 0 } else { self.refused_with };
                let what = format!("{}: {} is {}", self.heading, field.name, value);
                same(&what, (self.judged)(&bytes)?, expected)?;
            }
        }
        Ok(())
    }
}

/// So many accesses of different registers, whose number is 0.
fn accesses(count: u64) -> Vec<Access> {
    let access = |register| Access {
        register,
        number: 0,
    };
    (0..count.min(255) as u8).map(access).collect()
}

/// A read and a write, tentative OK with a commit noted.
fn held(stamp: u64) -> Row {
    Row {
        prepare: 1,
        outcome: 1,
        ..Row::of(stamp, accesses(1), accesses(1))
    }
}

/// 1 for a result that is RETRY, which has a retry stamp; 0 for another.
fn retry_for(code: u64) -> u64 {
    u64::from([4, 8].contains(&code))
}

/// RETRY for a retry stamp, OK without one.
fn result_for(retry: u64) -> u8 {
    if retry == 0 {
        1
    } else {
        4
    }
}

/// So many rows, in box 0 of 7.
fn table_of(rows: u64) -> Table {
    Table {
        n: 7,
        view: VIEW,
        promised: VIEW,
        ..Table::in_view_0((1..=rows).map(held).collect())
    }
}

fn header(layout: &Layout, field: &str, value: u64) -> Checked<Vec<u8>> {
    let mut table = match field {
        // More rows than these are refused as well, and are never looked at.
        "rows" => table_of(value.min(600)),
        _ => table_of(3),
    };
    match field {
        "mode" if value == 1 => table.promised = VIEW + 1,
        "view" => table.promised = value as u32,
        "promised view" => table.mode = u8::from(value > u64::from(VIEW)),
        _ => {}
    }
    let mut image = table.image();
    layout.put(&mut image, field, value)?;
    Ok(image)
}

/// The second of two rows, so that a body stands before its own; or the only one, so that any stamp may be tried.
fn row(layout: &Layout, field: &str, value: u64) -> Checked<Vec<u8>> {
    let mut tested = held(STAMP);
    match field {
        "retry stamp" => tested.prepare = result_for(value),
        "reads" => tested.reads = accesses(value),
        "writes" => tested.writes = accesses(value),
        "prepare byte" => tested.retry = retry_for(value),
        _ => {}
    }
    let rows = match field {
        "stamp" => vec![tested],
        _ => vec![held(1), tested],
    };
    let begin = 24 * rows.len();
    let mut image = Table::in_view_0(rows).image();
    layout.put(&mut image[begin..], field, value)?;
    Ok(image)
}

fn read(layout: &Layout, field: &str, value: u64) -> Checked<Vec<u8>> {
    access(
        layout,
        field,
        value,
        Row::of(STAMP, accesses(1), Vec::new()),
    )
}

fn write(layout: &Layout, field: &str, value: u64) -> Checked<Vec<u8>> {
    access(
        layout,
        field,
        value,
        Row::of(STAMP, Vec::new(), accesses(1)),
    )
}

/// The one access of a row. The same body in messages 1 and 3 is judged as it is in the table.
fn access(layout: &Layout, field: &str, value: u64, row: Row) -> Checked<Vec<u8>> {
    let mut image = Table::in_view_0(vec![Row {
        outcome: 1,
        ..row.clone()
    }])
    .image();
    layout.put(&mut image[48..], field, value)?;
    let mut proposed = message::propose_prepare(&row);
    let mut concluded = message::propose_outcome(&row, 1);
    layout.put(&mut proposed[11..], field, value)?;
    layout.put(&mut concluded[12..], field, value)?;
    let bad = as_a_table(&image)? == 2;
    same("message 1", as_a_message(&proposed)? == 3, bad)?;
    same("message 3", as_a_message(&concluded)? == 3, bad)?;
    Ok(image)
}

/// A row with as many reads or writes as a field says.
fn counted_by(field: &str, value: u64) -> Row {
    let mut row = Row::of(STAMP, accesses(1), accesses(1));
    match field {
        "reads" => row.reads = accesses(value),
        "writes" => row.writes = accesses(value),
        _ => {}
    }
    row
}

/// The stamp of a message; time and client are 1 where they are not tried.
fn stamp(layout: &Layout, field: &str, value: u64) -> Checked<Vec<u8>> {
    let mut bytes = message::read(0, 1);
    for (name, number) in [("time", 1), ("client", 1), (field, value)] {
        layout.put(&mut bytes[1..9], name, number)?;
    }
    Ok(bytes)
}

fn with(layout: &Layout, mut bytes: Vec<u8>, field: &str, value: u64) -> Checked<Vec<u8>> {
    layout.put(&mut bytes, field, value)?;
    Ok(bytes)
}

fn message_1(layout: &Layout, field: &str, value: u64) -> Checked<Vec<u8>> {
    let bytes = message::propose_prepare(&counted_by(field, value));
    with(layout, bytes, field, value)
}

fn message_2(layout: &Layout, field: &str, value: u64) -> Checked<Vec<u8>> {
    let (result, retry) = result_and_retry(field, value);
    let bytes = message::finalise_prepare(STAMP, VIEW, (result, retry));
    with(layout, bytes, field, value)
}

/// A result and a retry stamp that fit a value of one of them.
fn result_and_retry(field: &str, value: u64) -> (u8, u64) {
    match field {
        "result" => (1, retry_for(value)),
        "retry stamp" | "retry" => (result_for(value), 0),
        _ => (1, 0),
    }
}

fn message_3(layout: &Layout, field: &str, value: u64) -> Checked<Vec<u8>> {
    let bytes = message::propose_outcome(&counted_by(field, value), 1);
    with(layout, bytes, field, value)
}

fn message_4(layout: &Layout, field: &str, value: u64) -> Checked<Vec<u8>> {
    with(
        layout,
        message::finalise_outcome(STAMP, VIEW, 1),
        field,
        value,
    )
}

fn message_5(layout: &Layout, field: &str, value: u64) -> Checked<Vec<u8>> {
    with(layout, message::change_view(VIEW), field, value)
}

/// The image is that of the view.
fn message_6(layout: &Layout, field: &str, value: u64) -> Checked<Vec<u8>> {
    let view = if field == "view" { value as u32 } else { VIEW };
    let table = Table::in_view_0(vec![held(STAMP)]);
    let image = message::settled(&table.image(), view);
    with(layout, message::start_view(view, &image), field, value)
}

fn message_7(layout: &Layout, field: &str, value: u64) -> Checked<Vec<u8>> {
    with(layout, message::read(STAMP, 1), field, value)
}

fn counted_reply(layout: &Layout, field: &str, value: u64) -> Checked<Vec<u8>> {
    let reply = Record {
        box_number: 0,
        view: VIEW,
        result: result_and_retry(field, value),
        is_final: 0,
    };
    with(layout, reply.bytes().to_vec(), field, value)
}

fn record(layout: &Layout, field: &str, value: u64) -> Checked<Vec<u8>> {
    let (result, retry) = result_and_retry(field, value);
    let mut bytes = vec![0; 16];
    (bytes[1], bytes[8]) = (result, retry as u8);
    layout.put_as(&mut bytes, field, value, little_endian)?;
    Ok(bytes)
}
