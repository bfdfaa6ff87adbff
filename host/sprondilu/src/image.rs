//! The fields of a table image that the library has found good: here is no test of any of them.

use crate::json::Json;
use crate::{names, room, stamps};

/// "At most 512 rows."
pub const MOST_ROWS: u32 = 512;

pub const HEADER_BYTES: usize = 24;
pub const ROW_BYTES: usize = 24;
pub const ACCESS_BYTES: usize = 9;

/// A big-endian number in the bytes. Whoever asks knows that they are there.
pub fn number_at(bytes: &[u8], place: usize, width: usize) -> u64 {
    bytes[place..place + width]
        .iter()
        .fold(0, |number, byte| number << 8 | u64::from(*byte))
}

pub fn u32_at(bytes: &[u8], place: usize) -> u32 {
    number_at(bytes, place, 4) as u32
}

/// "format 1; box; n; mode [..]; then 4 bytes each: rows, view (last normal), promised view, rows when this view began, total
/// length"
#[derive(Clone, Copy, Debug, PartialEq, Eq)]
pub struct Header {
    pub format: u8,
    pub box_number: u8,
    pub n: u8,
    pub mode: u8,
    pub rows: u32,
    pub view: u32,
    pub promised: u32,
    pub start_rows: u32,
    pub length: u32,
}

impl Header {
    /// The header that stands in the first 24 bytes.
    pub fn at(bytes: &[u8]) -> Header {
        Header {
            format: bytes[0],
            box_number: bytes[1],
            n: bytes[2],
            mode: bytes[3],
            rows: u32_at(bytes, 4),
            view: u32_at(bytes, 8),
            promised: u32_at(bytes, 12),
            start_rows: u32_at(bytes, 16),
            length: u32_at(bytes, 20),
        }
    }

    pub fn json(&self) -> Json {
        Json::Object(vec![
            ("format", Json::from(self.format)),
            ("box", Json::from(self.box_number)),
            ("n", Json::from(self.n)),
            ("mode", Json::text(names::mode(self.mode))),
            ("rows", Json::from(self.rows)),
            ("view", Json::from(self.view)),
            ("promised_view", Json::from(self.promised)),
            ("start_rows", Json::from(self.start_rows)),
            ("share", Json::from(room::share(self))),
            ("room", Json::from(room::left(self))),
            ("length", Json::from(self.length)),
        ])
    }
}

/// One read or write: the register, and the version seen or the value written.
#[derive(Clone, Copy, Debug, PartialEq, Eq)]
pub struct Access {
    pub register: u8,
    pub number: u64,
}

/// "0 to 4 reads, then 0 to 4 writes"
#[derive(Clone, Debug, PartialEq, Eq, Default)]
pub struct Body {
    pub reads: Vec<Access>,
    pub writes: Vec<Access>,
}

impl Body {
    /// The body at a place, with its two counts.
    pub fn at(bytes: &[u8], place: usize, reads: u8, writes: u8) -> Body {
        let access = |index: usize| {
            let at = place + ACCESS_BYTES * index;
            Access {
                register: bytes[at],
                number: number_at(bytes, at + 1, 8),
            }
        };
        let (reads, writes) = (usize::from(reads), usize::from(writes));
        Body {
            reads: (0..reads).map(access).collect(),
            writes: (reads..reads + writes).map(access).collect(),
        }
    }

    /// `read 5@1:1 write 5=7`, which are the words that `message` takes.
    pub fn words(&self) -> String {
        let read =
            |access: &Access| format!("{}@{}", access.register, stamps::short(access.number));
        let write = |access: &Access| format!("{}={}", access.register, access.number);
        let mut words = Vec::new();
        if !self.reads.is_empty() {
            words.push("read".to_string());
            words.extend(self.reads.iter().map(read));
        }
        if !self.writes.is_empty() {
            words.push("write".to_string());
            words.extend(self.writes.iter().map(write));
        }
        words.join(" ")
    }

    pub fn json(&self) -> Vec<(&'static str, Json)> {
        let read = |access: &Access| {
            let mut fields = vec![("register", Json::from(access.register))];
            fields.extend(stamps::json(stamps::VERSION, Some(access.number)));
            Json::Object(fields)
        };
        let write = |access: &Access| {
            Json::Object(vec![
                ("register", Json::from(access.register)),
                ("value", Json::text(access.number.to_string())),
            ])
        };
        vec![
            ("reads", Json::List(self.reads.iter().map(read).collect())),
            (
                "writes",
                Json::List(self.writes.iter().map(write).collect()),
            ),
        ]
    }
}

/// "stamp 8, retry stamp 8, body offset 4, read count, write count, prepare byte, outcome byte"
#[derive(Clone, Debug, PartialEq, Eq)]
pub struct Row {
    pub stamp: u64,
    pub retry_stamp: u64,
    pub prepare: u8,
    pub outcome: u8,
    pub body: Body,
}

impl Row {
    fn at(image: &[u8], place: usize) -> Row {
        let offset = u32_at(image, place + 16) as usize;
        Row {
            stamp: number_at(image, place, 8),
            retry_stamp: number_at(image, place + 8, 8),
            prepare: image[place + 22],
            outcome: image[place + 23],
            body: Body::at(image, offset, image[place + 20], image[place + 21]),
        }
    }

    /// The row in a few words.
    pub fn words(&self) -> String {
        format!(
            "{} {}, {}, {}",
            stamps::short(self.stamp),
            names::prepare(self.prepare, self.retry_stamp),
            names::outcome(self.outcome),
            self.body.words()
        )
    }

    pub fn json(&self) -> Json {
        let prepare = names::prepare_json(self.prepare, self.retry_stamp);
        let mut fields = stamps::json(stamps::STAMP, Some(self.stamp));
        fields.push(("prepare", prepare));
        fields.push(("outcome", names::outcome_json(self.outcome)));
        fields.extend(self.body.json());
        Json::Object(fields)
    }
}

/// A table, as its image says it: the rows stand in stamp order.
#[derive(Clone, Debug, PartialEq, Eq)]
pub struct Table {
    pub header: Header,
    pub rows: Vec<Row>,
}

impl Table {
    /// The table of an image that the library found good.
    pub fn of(image: &[u8]) -> Table {
        let header = Header::at(image);
        let place = |index: usize| HEADER_BYTES + ROW_BYTES * index;
        let rows = (0..header.rows as usize)
            .map(|index| Row::at(image, place(index)))
            .collect();
        Table { header, rows }
    }

    pub fn row(&self, stamp: u64) -> Option<&Row> {
        self.rows.iter().find(|row| row.stamp == stamp)
    }

    pub fn json(&self) -> Json {
        let rows = self.rows.iter().map(Row::json).collect();
        Json::Object(vec![
            ("header", self.header.json()),
            ("rows", Json::List(rows)),
        ])
    }
}
