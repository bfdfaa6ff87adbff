//! A box's answer to a message of each kind: what all sides do to a table that is full, or nearly so.

use crate::{Side, Work, EXPERT, LIBRARY, SECOND, TWIN, WALK};
use samples::{message, random, Dice, Row, Table, GREATEST_STAMP, TABLE_BYTES};

const REPLY_LENGTH: usize = 24;
const OK: u8 = 1;
const FINAL_OK: u8 = 5;
const COMMIT: u8 = 1;
const COMMIT_DONE: u8 = 3;

/// The sizes of works on message 1, counted with the new row. A box of three whose view began with 510 rows takes one more,
/// and no box is ever asked to take a 512th.
pub const WITH_A_NEW_ROW: [usize; 3] = [64, 256, 511];

/// Tables to which one message of this kind is sent, all rows with the longest bodies.
pub struct Answering<const KIND: u8> {
    pub message: Vec<u8>,
    /// The buffer before the message and after it, and the reply, as the second program has them.
    pub before: Vec<u8>,
    after: Vec<u8>,
    pub reply: Vec<u8>,
    /// A table buffer and a reply buffer for each time.
    pub lent: Vec<(Vec<u8>, Vec<u8>)>,
}

impl<const KIND: u8> Answering<KIND> {
    /// This table and this message of the kind.
    pub fn asked(table: &Table, message: Vec<u8>) -> Answering<KIND> {
        let mut before = table.image();
        before.resize(TABLE_BYTES, 0);
        let mut after = before.clone();
        let mut reply = vec![0; REPLY_LENGTH];
        let number = reference::answer(&mut after, &message, &mut reply);
        assert_eq!(number, 0, "message {} is refused", KIND);
        Answering {
            message,
            before,
            after,
            reply,
            lent: Vec::new(),
        }
    }
}

impl<const KIND: u8> Work for Answering<KIND> {
    const NAME: &'static str = name(KIND);
    const SIZES: [usize; 3] = if KIND == 1 {
        WITH_A_NEW_ROW
    } else {
        [64, 256, 512]
    };
    const CALL: Option<&'static str> = Some("sprondilu_answer");
    const SIDES: &'static [Side] = &[LIBRARY, TWIN, SECOND, EXPERT, WALK];
    const ABOUT: &'static str = about(KIND);

    fn of(rows: usize) -> Answering<KIND> {
        let (table, message) = table_and_message(KIND, rows);
        Answering::asked(&table, message)
    }

    /// The table and the message, each as far as it is looked at.
    fn bytes(&self) -> usize {
        image_length(&self.before) + self.message.len()
    }

    fn get_ready(&mut self, times: usize) {
        let fresh = || (vec![0; TABLE_BYTES], vec![0; REPLY_LENGTH]);
        self.lent.resize_with(times, fresh);
        let written = image_length(&self.before).max(image_length(&self.after));
        for (table, reply) in &mut self.lent {
            table[..written].copy_from_slice(&self.before[..written]);
            reply.fill(0);
        }
    }

    fn done_by(&mut self, side: Side, times: usize) {
        for (table, reply) in &mut self.lent[..times] {
            let number = (side.answer)(table, &self.message, reply);
            assert_eq!(number, 0, "{} refused message {}", side.name, KIND);
        }
    }

    fn assert_done(&self, side: Side) {
        for (table, reply) in &self.lent {
            let same = *table == self.after && *reply == self.reply;
            assert!(same, "{} left other bytes", side.name);
        }
    }
}

const fn name(kind: u8) -> &'static str {
    match kind {
        1 => "answer1",
        2 => "answer2",
        3 => "answer3",
        4 => "answer4",
        5 => "answer5",
        6 => "answer6",
        _ => "answer7",
    }
}

const fn about(kind: u8) -> &'static str {
    match kind {
        1 => {
            "\
`sprondilu_answer` of the library answers message 1 with a new stamp, against the same walks and moves in safe Rust.
The input is a table by the rules whose rows are all committed and have 4 reads and 4 writes each, but for one row in
the middle, which the message proposes. The view began with all others. Half of the rows move, and the check looks at
all. The rows are counted with the new one, and 511 are the most that a box of three gets by messages. Each side
answers in its own copies of the table, which are made before the clock runs. The second program parses the table into
one of its own, and writes the image out anew. Beside it stands, as walk, the twin with a search that walks the rows
from the top."
        }
        2 => "Message 2 makes the prepare of the last row of such a table final.",
        3 => "Message 3 notes an outcome in the last row of such a table.",
        4 => "Message 4 makes the outcome of the last row of such a table done.",
        5 => "Message 5 has the box of such a table promise a view.",
        6 => "Message 6 puts another such table in the place of one.",
        _ => "Message 7 finds the newest write of a register in such a table.",
    }
}

fn image_length(buffer: &[u8]) -> usize {
    let length = buffer[20..24].try_into().expect("four bytes");
    u32::from_be_bytes(length) as usize
}

/// A table of so many rows, normal and as its view began, with every row committed.
pub fn committed(seed: u64, rows: usize) -> Table {
    let mut table = random::full_table(&mut Dice::seeded(seed), rows);
    (table.box_number, table.n, table.mode) = (0, 3, 0);
    (table.view, table.promised, table.start_rows) = (0, 0, rows as u32);
    for row in &mut table.rows {
        (row.prepare, row.retry, row.outcome) = (FINAL_OK, 0, COMMIT_DONE);
    }
    table
}

fn table_and_message(kind: u8, rows: usize) -> (Table, Vec<u8>) {
    let mut table = committed(1, rows);
    let last = &mut table.rows[rows - 1];
    let stamp = last.stamp.to_be_bytes();
    let body = [&[4, 4], &last.body()[..]].concat();
    let message = match kind {
        1 => return proposed(table),
        2 => {
            (last.prepare, last.outcome) = (OK, 0);
            [&[2], &stamp[..], &[0; 4], &[OK], &[0; 8]].concat()
        }
        3 => {
            last.outcome = 0;
            [&[3], &stamp[..], &[COMMIT], &body].concat()
        }
        4 => {
            last.outcome = COMMIT;
            [&[4], &stamp[..], &[0; 4], &[COMMIT]].concat()
        }
        5 => vec![5, 0, 0, 0, 1],
        6 => [&[6, 0, 0, 0, 3], &started(rows, 3).image()[..]].concat(),
        _ => [&[7], &GREATEST_STAMP.to_be_bytes()[..], &[7]].concat(),
    };
    (table, message)
}

/// The row in the middle taken out of the table, and proposed.
fn proposed(mut table: Table) -> (Table, Vec<u8>) {
    let middle = table.rows.len() / 2;
    let row = taken_out(&mut table, middle);
    (table, message::propose_prepare(&row))
}

/// The row at an index taken out of a table, whose view then began with the others.
pub fn taken_out(table: &mut Table, index: usize) -> Row {
    let row = table.rows.remove(index);
    table.start_rows = table.rows.len() as u32;
    row
}

/// Another table, with which a view begins whose box is 0 of 3.
fn started(rows: usize, view: u32) -> Table {
    let mut image = committed(2, rows);
    (image.view, image.promised) = (view, view);
    image
}
