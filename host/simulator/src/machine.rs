//! What stands under the simulated group: the four calls, by the library or by the second program.

use reference::answer::answer_for;
use reference::bytes::Source;
use reference::halving::compared;
use reference::merge::merge_for;
use reference::table::fresh_for;
use reference::{Decision, Model, PrepareResult, VALLEY};
use samples::replies::laid;
use samples::Record;

/// The calls of one kind of box and coordinator. Those that read or write a table are told the model of its box.
#[derive(Clone, Copy)]
pub struct Machine {
    pub name: &'static str,
    pub model: Model,
    pub fresh: fn(Model, &mut [u8], u8, u8) -> u8,
    pub answer: fn(Model, &mut [u8], &[u8], &mut [u8]) -> u8,
    pub merge: fn(Model, &[u8], u32, &mut [u8]) -> u8,
    /// Coded as at the C boundary.
    pub count: fn(u8, &[Record]) -> u64,
}

/// The proved calls, through the C boundary. They know one model, which is that of the valley.
pub const LIBRARY: Machine = Machine {
    name: "the library",
    model: VALLEY,
    fresh: |_, table, n, box_number| boundary::fresh(table, n, box_number),
    answer: |_, table, message, reply| answer_with_its_count(table, message, reply),
    merge: |_, run, view, out| boundary::merge(run, view, out),
    count: count_by_both_calls,
};

/// The second program, written from document 01 apart from the proved one.
pub const SECOND: Machine = Machine {
    name: "the second program",
    model: VALLEY,
    fresh: |model, table, n, box_number| fresh_for(model, table, n, box_number).code(),
    answer: |model, table, message, reply| answer_for(model, table, message, reply).code(),
    merge: |model, run, view, out| merge_for(model, run, view, out).code(),
    count: |n, records| reference::count(n, &laid(records)),
};

impl Machine {
    /// The same calls for boxes with so many rows for 512. The largest image is that of rows with the largest bodies: 24
    /// bytes and 72 for each. The library has no such boxes.
    pub fn with_rows(self, rows: usize) -> Machine {
        let buffer = 24 + 96 * rows;
        Machine {
            model: Model { rows, buffer },
            ..self
        }
    }

    /// Whether the boxes have fewer rows than those of the valley.
    pub fn is_small(&self) -> bool {
        self.model.rows < VALLEY.rows
    }
}

/// The library answers in a word. The rows compared that it has beside the number are those of the second program's
/// halving, over the stamps that the table held when the message came: "with 0 for refusals numbered 1 to 4 and 9", and
/// for messages other than 1 to 4.
fn answer_with_its_count(table: &mut [u8], message: &[u8], reply: &mut [u8]) -> u8 {
    let stamps = stamps_in(table);
    let word = boundary::answer_word(table, message, reply);
    let number = word as u8;
    let rows = match (message[0], number) {
        (1..=4, 0 | 5..=8) => compared(&stamps, number_of_8(message, 1)),
        _ => 0,
    };
    let expected = u64::from(number) | (rows as u64) << 16;
    assert_eq!(word, expected, "{:02x?} in {:?}", message, stamps);
    number
}

/// The stamps of the rows that a table by the rules has, in their order.
fn stamps_in(table: &[u8]) -> Vec<u64> {
    let rows = Source::starting_at(table, 4).and_then(|mut header| header.four());
    let place = |row: u32| 24 + 24 * row as usize;
    let rows = 0..rows.expect("a header");
    rows.map(|row| number_of_8(table, place(row))).collect()
}

fn number_of_8(bytes: &[u8], at: usize) -> u64 {
    let number = Source::starting_at(bytes, at).and_then(|mut field| field.eight());
    number.expect("eight bytes")
}

/// The library counts replies in bytes and as records; both calls have the same answer.
fn count_by_both_calls(n: u8, records: &[Record]) -> u64 {
    let as_structs: Vec<boundary::Record> = records.iter().map(as_struct).collect();
    let in_bytes = boundary::count(n, &laid(records));
    let in_records = boundary::count_records(n, &as_structs);
    assert_eq!(in_bytes, in_records, "n {}: {:?}", n, records);
    in_bytes
}

fn as_struct(record: &Record) -> boundary::Record {
    boundary::Record {
        box_number: record.box_number,
        result: record.result.0,
        is_final: record.is_final,
        view: record.view,
        retry: record.result.1,
    }
}

/// What the answer of a count means, or the number that refuses the replies.
pub fn decoded(counted: u64) -> Result<Decision, u8> {
    let number = (counted & 0xff) as u8;
    let result = || {
        let code = (counted >> 10 & 7) as u8;
        PrepareResult::from_code(code, counted >> 16).expect("a result by the rules")
    };
    match (number, counted >> 8 & 3) {
        (0, 0) => Ok(Decision::Wait),
        (0, 1) => Ok(Decision::Fast(result())),
        (0, _) => Ok(Decision::Slow(result())),
        (refusal, _) => Err(refusal),
    }
}
