//! Bytes put together by hand, apart from the crate's own writing, and a box to send them to.
#![allow(dead_code)] // each file of tests uses a part of this

pub mod checks;
pub mod dice;

use reference::Table;

pub const BUFFER: usize = 49_176;
pub const GREATEST_STAMP: u64 = (1 << 48) - 1;

/// What stands where nothing was written yet, so that every stray write is seen.
pub const DIRT: u8 = 0xEE;

pub type Accesses<'a> = &'a [(u8, u64)];

pub fn body(reads: Accesses, writes: Accesses) -> Vec<u8> {
    let mut bytes = Vec::new();
    for (register, number) in reads.iter().chain(writes) {
        bytes.push(*register);
        bytes.extend(number.to_be_bytes());
    }
    bytes
}

fn counts(reads: Accesses, writes: Accesses) -> [u8; 2] {
    [reads.len() as u8, writes.len() as u8]
}

pub fn propose(stamp: u64, reads: Accesses, writes: Accesses) -> Vec<u8> {
    let mut bytes = vec![1];
    bytes.extend(stamp.to_be_bytes());
    bytes.extend(counts(reads, writes));
    bytes.extend(body(reads, writes));
    bytes
}

pub fn finalise(stamp: u64, view: u32, result: u8, retry: u64) -> Vec<u8> {
    let mut bytes = vec![2];
    bytes.extend(stamp.to_be_bytes());
    bytes.extend(view.to_be_bytes());
    bytes.push(result);
    bytes.extend(retry.to_be_bytes());
    bytes
}

pub fn outcome(stamp: u64, code: u8, reads: Accesses, writes: Accesses) -> Vec<u8> {
    let mut bytes = vec![3];
    bytes.extend(stamp.to_be_bytes());
    bytes.push(code);
    bytes.extend(counts(reads, writes));
    bytes.extend(body(reads, writes));
    bytes
}

pub fn finish(stamp: u64, view: u32, code: u8) -> Vec<u8> {
    let mut bytes = vec![4];
    bytes.extend(stamp.to_be_bytes());
    bytes.extend(view.to_be_bytes());
    bytes.push(code);
    bytes
}

pub fn change(view: u32) -> Vec<u8> {
    let mut bytes = vec![5];
    bytes.extend(view.to_be_bytes());
    bytes
}

pub fn start(view: u32, image: &[u8]) -> Vec<u8> {
    let mut bytes = vec![6];
    bytes.extend(view.to_be_bytes());
    bytes.extend(image);
    bytes
}

pub fn read(stamp: u64, register: u8) -> Vec<u8> {
    let mut bytes = vec![7];
    bytes.extend(stamp.to_be_bytes());
    bytes.push(register);
    bytes
}

#[derive(Clone)]
pub struct RawRow {
    pub stamp: u64,
    pub retry: u64,
    pub counts: [u8; 2],
    pub body: Vec<u8>,
    pub prepare: u8,
    pub outcome: u8,
}

pub fn row(stamp: u64, reads: Accesses, writes: Accesses, prepare: u8, outcome: u8) -> RawRow {
    RawRow {
        stamp,
        retry: 0,
        counts: counts(reads, writes),
        body: body(reads, writes),
        prepare,
        outcome,
    }
}

pub fn retry_row(stamp: u64, writes: Accesses, prepare: u8, retry: u64) -> RawRow {
    let mut row = row(stamp, &[], writes, prepare, 0);
    row.retry = retry;
    row
}

#[derive(Clone)]
pub struct RawTable {
    pub box_number: u8,
    pub n: u8,
    pub mode: u8,
    pub view: u32,
    pub promised: u32,
    pub start_rows: u32,
    pub rows: Vec<RawRow>,
}

pub fn normal(box_number: u8, n: u8, view: u32, rows: &[RawRow]) -> RawTable {
    RawTable {
        box_number,
        n,
        mode: 0,
        view,
        promised: view,
        start_rows: 0,
        rows: rows.to_vec(),
    }
}

pub fn changing(box_number: u8, n: u8, view: u32, promised: u32, rows: &[RawRow]) -> RawTable {
    RawTable {
        mode: 1,
        promised,
        ..normal(box_number, n, view, rows)
    }
}

/// A normal table as it begins a view: box v mod n, every row a start row.
pub fn beginning(n: u8, view: u32, rows: &[RawRow]) -> RawTable {
    RawTable {
        start_rows: rows.len() as u32,
        ..normal((view % u32::from(n)) as u8, n, view, rows)
    }
}

impl RawTable {
    pub fn image(&self) -> Vec<u8> {
        let lengths: usize = self.rows.iter().map(|row| row.body.len()).sum();
        let mut offset = 24 + 24 * self.rows.len();
        let total = offset + lengths;
        let mut bytes = vec![1, self.box_number, self.n, self.mode];
        let numbers = [self.view, self.promised, self.start_rows, total as u32];
        bytes.extend((self.rows.len() as u32).to_be_bytes());
        bytes.extend(numbers.iter().flat_map(|number| number.to_be_bytes()));
        for row in &self.rows {
            bytes.extend(row.stamp.to_be_bytes());
            bytes.extend(row.retry.to_be_bytes());
            bytes.extend((offset as u32).to_be_bytes());
            bytes.extend(row.counts);
            bytes.extend([row.prepare, row.outcome]);
            offset += row.body.len();
        }
        bytes.extend(self.rows.iter().flat_map(|row| row.body.clone()));
        bytes
    }
}

/// A reply taken apart by hand.
#[derive(Clone, Copy, Debug, PartialEq, Eq)]
pub struct Heard {
    pub number: u8,
    pub kind: u8,
    pub box_number: u8,
    pub state: u8,
    pub view: u32,
    pub stamp: u64,
    pub value: u64,
}

pub fn number_of(bytes: &[u8]) -> u64 {
    bytes
        .iter()
        .fold(0, |number, byte| number * 256 + u64::from(*byte))
}

/// A box's table buffer. Every message sent through it is held to what holds of all calls.
#[derive(Clone)]
pub struct TestBox {
    pub buffer: Vec<u8>,
}

impl TestBox {
    pub fn fresh(n: u8, box_number: u8) -> TestBox {
        let mut buffer = vec![DIRT; BUFFER + 40];
        assert_eq!(reference::fresh(&mut buffer, n, box_number), 0);
        TestBox { buffer }
    }

    pub fn holding(image: &[u8]) -> TestBox {
        let mut buffer = image.to_vec();
        buffer.resize(BUFFER + 40, DIRT);
        TestBox { buffer }
    }

    pub fn held(&self) -> Table {
        Table::parse(&self.buffer).expect("a table").0
    }

    pub fn image(&self) -> &[u8] {
        let (_, length) = Table::parse(&self.buffer).expect("a table");
        &self.buffer[..length]
    }

    /// The 24 bytes of the reply. Asserts that a refusal changed nothing and answered with its number alone, that the
    /// reply buffer past 24 bytes stayed, and that the table buffer past both images did.
    pub fn reply(&mut self, message: &[u8]) -> Vec<u8> {
        let before = self.buffer.clone();
        let old_length = Table::parse(&before).map_or(0, |(_, length)| length);
        let mut reply = vec![DIRT; 31];
        let number = reference::answer(&mut self.buffer, message, &mut reply);
        assert_eq!(reply[24..], [DIRT; 7]);
        assert_eq!(reply[0], number);
        if number > 0 {
            assert_eq!(self.buffer, before);
            assert_eq!(reply[1..24], [0; 23]);
        } else {
            let new_length = self.image().len();
            let longer = old_length.max(new_length);
            let given_up = &self.buffer[new_length..longer];
            assert!(given_up.iter().all(|byte| *byte == 0));
            assert_eq!(self.buffer[longer..], before[longer..]);
        }
        reply.truncate(24);
        reply
    }

    pub fn send(&mut self, message: &[u8]) -> Heard {
        let reply = self.reply(message);
        Heard {
            number: reply[0],
            kind: reply[1],
            box_number: reply[2],
            state: reply[3],
            view: number_of(&reply[4..8]) as u32,
            stamp: number_of(&reply[8..16]),
            value: number_of(&reply[16..24]),
        }
    }

    pub fn number(&mut self, message: &[u8]) -> u8 {
        self.send(message).number
    }

    /// Sends a message that must be done.
    pub fn done(&mut self, message: &[u8]) -> Heard {
        let heard = self.send(message);
        assert_eq!(heard.number, 0);
        heard
    }
}

/// The merge of images, in a buffer of dirt. Asserts that a refusal wrote nothing, and that a merge wrote one image only.
pub fn merge(images: &[Vec<u8>], view: u32) -> Result<Table, u8> {
    merge_run(&images.concat(), view)
}

pub fn merge_run(run: &[u8], view: u32) -> Result<Table, u8> {
    let mut out = vec![DIRT; BUFFER + 40];
    let number = reference::merge(run, view, &mut out);
    if number > 0 {
        assert!(out.iter().all(|byte| *byte == DIRT));
        return Err(number);
    }
    let (table, length) = Table::parse(&out).expect("a table");
    assert!(out[length..].iter().all(|byte| *byte == DIRT));
    Ok(table)
}

/// Prepare byte, outcome byte and retry stamp of the row of a stamp.
pub fn codes(table: &Table, stamp: u64) -> (u8, u8, u64) {
    let row = &table.rows[&stamp];
    (row.prepare_byte(), row.outcome_byte(), row.retry_stamp())
}
