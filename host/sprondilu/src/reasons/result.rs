//! Why a box did not say OK to a transaction that was new to it. The result is the library's; what is found here only says which
//! row and which register it was about.

use crate::image::{Body, Row, Table};
use crate::json::Json;
use crate::message::Message;
use crate::reply::Reply;
use crate::stamps;

/// A row of the table that stands in the way of a transaction.
#[derive(Clone, Debug, PartialEq, Eq)]
pub struct InTheWay {
    pub row: Row,
    pub register: u8,
    /// The version that the transaction has read of the register, if the row has written it since. Otherwise the transaction
    /// writes the register, and the row is later.
    pub version: Option<u64>,
}

/// What is said if nothing was found that a person could be told.
const NOT_SEEN: &str =
    "; this program does not see what stands in the way: please report it, with the files";

/// Whether message 1 with a stamp that the table did not hold got another tentative result than OK: then the box has checked it
/// just now. A result that was held is only answered, and beside an outcome that was held nothing is checked.
fn was_refused(table: &Table, message: &Message, reply: &Reply) -> bool {
    let is_new = |stamp: u64| table.row(stamp).is_none();
    match message {
        Message::ProposePrepare { stamp, .. } => is_new(*stamp) && (2..=4).contains(&reply.state),
        _ => false,
    }
}

/// What stands in the way of a transaction, from the table that it came to.
pub fn in_the_way(table: &Table, message: &Message, reply: &Reply) -> Option<InTheWay> {
    let (stamp, body) = match message {
        Message::ProposePrepare { stamp, body } => (*stamp, body),
        _ => return None,
    };
    if !was_refused(table, message, reply) {
        return None;
    }
    let prepared = || table.rows.iter().filter(|row| is_prepared(row));
    match reply.state {
        2 => newer(table.rows.iter().filter(|row| is_committed(row)), body),
        3 => newer(prepared(), body).or_else(|| {
            let mut later = prepared().rev().take_while(|row| row.stamp > stamp);
            later.find_map(|row| accessed(row, body))
        }),
        _ => accessed(table.row(reply.value)?, body),
    }
}

/// "Committed: outcome 3."
fn is_committed(row: &Row) -> bool {
    row.outcome == 3
}

/// "Prepared: prepare byte 1 or 5 and outcome 0, 1 or 2."
fn is_prepared(row: &Row) -> bool {
    matches!(row.prepare, 1 | 5) && row.outcome <= 2
}

/// The first read of the body that some of the rows have written since, and the last of these rows.
fn newer<'a>(
    rows: impl DoubleEndedIterator<Item = &'a Row> + Clone,
    body: &Body,
) -> Option<InTheWay> {
    body.reads.iter().find_map(|read| {
        let writes = |row: &Row| row.body.writes.iter().any(|w| w.register == read.register);
        let mut newest_first = rows.clone().rev();
        let row = newest_first.find(|row| row.stamp > read.number && writes(row))?;
        Some(InTheWay {
            row: row.clone(),
            register: read.register,
            version: Some(read.number),
        })
    })
}

/// The first register that the body writes and the row reads or writes.
fn accessed(row: &Row, body: &Body) -> Option<InTheWay> {
    let accesses = |register: u8| {
        let mut both = row.body.reads.iter().chain(&row.body.writes);
        both.any(|access| access.register == register)
    };
    let write = body.writes.iter().find(|write| accesses(write.register))?;
    Some(InTheWay {
        row: row.clone(),
        register: write.register,
        version: None,
    })
}

/// The same in words, and nothing where nothing was checked or OK was said.
pub fn words(table: &Table, message: &Message, reply: &Reply) -> String {
    match in_the_way(table, message, reply) {
        Some(found) => found.words(),
        None if was_refused(table, message, reply) => NOT_SEEN.to_string(),
        None => String::new(),
    }
}

impl InTheWay {
    fn words(&self) -> String {
        let (how, which) = match self.version {
            Some(version) => (
                format!("read in version {}", stamps::short(version)),
                "newer",
            ),
            None => ("writes".to_string(), "later"),
        };
        format!(
            "; in the way at register {}, which it {}: the {} row {}",
            self.register,
            how,
            which,
            self.row.words()
        )
    }

    pub fn json(&self) -> Json {
        let mut fields = vec![("register", Json::from(self.register))];
        fields.extend(stamps::json(stamps::VERSION, self.version));
        fields.push(("row", self.row.json()));
        Json::Object(fields)
    }
}
