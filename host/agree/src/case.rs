//! What is asked of both renderings, with the answer that the second program gives over bytes.

use crate::plain::{table_of, Sent};
use reference::answer::answer_for;
use reference::count::count_bytes;
use reference::halving::compared;
use reference::merge::merge_for;
use reference::numbers::first_that_applies;
use reference::{check, proposal_check, Decision, Model, Number, PrepareResult, Rows, VALLEY};
use samples::{replies, Record, Row, Table};

/// A box that is soon full, so that this happens often: from fresh with 6, 4 or 3 rows, in groups of 3, 5 and 7.
pub const SMALL: Model = Model {
    rows: 12,
    buffer: VALLEY.buffer,
};

/// Document 02 has a check for messages 1 and leaves that of document 01 to the merge.
#[derive(Clone, Copy)]
pub enum WhoChecks {
    ABox,
    TheMerge,
}

pub enum Case {
    /// A box's answer to a message: the table after it and the 24 bytes of the reply, or the number of the refusal.
    Answer(Table, Sent, Result<(Table, Vec<u8>), Number>),
    Merge(u32, Vec<Table>, Result<Table, Number>),
    Count(u8, Vec<Record>, Result<Decision, Number>),
    /// What one of the checks says of a transaction over rows.
    Check(WhoChecks, Vec<Row>, Row, PrepareResult),
    /// Whether a table is one by the rules.
    Image(Table, bool),
    /// The fresh table of a box, unless there is none.
    Fresh(u8, u8, Option<Table>),
    /// Whether a table buffer of so many bytes, and a reply buffer, are too small.
    Buffers(usize, bool, usize, bool),
    /// The number given where these numbers apply.
    Applying(Vec<Number>, Number),
    /// How many rows the search for a stamp compares, of rows with these stamps.
    Steps(Vec<u64>, u64, usize),
}

impl Case {
    pub fn answer(held: &Table, sent: Sent) -> Case {
        let mut table = held.image();
        table.resize(SMALL.buffer, 0);
        let before = table.clone();
        let mut reply = vec![0; 24];
        let told = match answer_for(SMALL, &mut table, &sent.bytes(), &mut reply) {
            Number::Done => Ok((parsed(&table).expect("a table after a message"), reply)),
            refusal => {
                assert_ne!(
                    refusal,
                    Number::BadTable,
                    "a case lends a table by the rules"
                );
                assert_eq!(
                    (table, &reply[1..]),
                    (before, &[0; 23][..]),
                    "{:?}",
                    refusal
                );
                Err(refusal)
            }
        };
        Case::Answer(held.clone(), sent, told)
    }

    pub fn merge(view: u32, tables: Vec<Table>) -> Case {
        let run: Vec<u8> = tables.iter().flat_map(Table::image).collect();
        let mut out = vec![0; SMALL.buffer];
        let told = match merge_for(SMALL, &run, view, &mut out) {
            Number::Done => Ok(parsed(&out).expect("a merged table")),
            refusal => {
                assert_ne!(
                    refusal,
                    Number::BadTable,
                    "a case lends tables by the rules"
                );
                Err(refusal)
            }
        };
        Case::Merge(view, tables, told)
    }

    pub fn count(n: u8, replies: Vec<Record>) -> Case {
        let told = count_bytes(n, &replies::laid(&replies));
        Case::Count(n, replies, told)
    }

    pub fn check(who: WhoChecks, rows: Vec<Row>, asked: Row) -> Case {
        // The second program reads a transaction in a row, which holds something.
        let row = Row {
            outcome: 1,
            ..asked.clone()
        };
        let body = &taken(vec![row])[&asked.stamp].body;
        let check = match who {
            WhoChecks::ABox => proposal_check,
            WhoChecks::TheMerge => check,
        };
        let told = check(&taken(rows.clone()), asked.stamp, body);
        Case::Check(who, rows, asked, told)
    }

    pub fn image(table: Table) -> Case {
        let good = parsed(&table.image()).is_some();
        Case::Image(table, good)
    }

    pub fn fresh(n: u8, box_number: u8) -> Case {
        let mut buffer = vec![0; VALLEY.buffer];
        let number = reference::fresh(&mut buffer, n, box_number);
        let told = (number == 0).then(|| parsed(&buffer).expect("a fresh table"));
        Case::Fresh(n, box_number, told)
    }

    /// With room for the other buffer.
    pub fn buffers(table: usize, reply: usize) -> Case {
        let small =
            |table, reply| reference::answer(&mut vec![0; table], &[], &mut vec![0; reply]) == 1;
        Case::Buffers(table, small(table, 24), reply, small(VALLEY.buffer, reply))
    }

    pub fn applying(numbers: Vec<Number>) -> Case {
        let first = first_that_applies(|number| numbers.contains(&number));
        Case::Applying(numbers, first)
    }

    pub fn steps(stamps: Vec<u64>, sought: u64) -> Case {
        let told = compared(&stamps, sought);
        Case::Steps(stamps, sought, told)
    }
}

/// Rows as the second program reads them from a table.
fn taken(rows: Vec<Row>) -> Rows {
    let taken = reference::Table::parse_for(SMALL, &Table::in_view_0(rows).image());
    taken.expect("rows by the rules").0.rows
}

/// The table whose image stands there, if one does.
fn parsed(bytes: &[u8]) -> Option<Table> {
    let parsed = reference::Table::parse_for(SMALL, bytes);
    parsed.map(|(table, _)| table_of(&table))
}
