//! `answer`: a box's answer to one message, by its table file.

use crate::calls::{self, TABLE_BYTES};
use crate::ends::{Refusal, Stop};
use crate::files::{self, Held};
use crate::image::{Row, Table};
use crate::json::Json;
use crate::message::Message;
use crate::reply::Reply;
use crate::words::{usage, Words};
use crate::{names, reasons, stamps, wrong};
use std::path::{Path, PathBuf};

pub fn run(words: &Words) -> Result<(String, Json), Stop> {
    let [table, message] = words.files(["the table file", "the message file"])?;
    let over = words.over("--reply", "reply", |bytes| {
        wrong::reply::reply(bytes).is_ok()
    })?;
    let out = words.path("--reply");
    let bytes = files::read(&message)?;
    let held = Held::of(&table)?;
    if let Some(out) = out {
        if held.is(out) || is_same(out, &message) {
            return Err(usage(
                "the reply would be written over the table or the message",
            ));
        }
        // Before the table changes, not after.
        files::may_create(out, over)?;
    }
    let answered = Answered::by(&held, &bytes);
    answered.store(&held)?;
    // Whoever waits for the lock of a reply that he replaces holds no other, so that no two runs wait for each other.
    let before = held.let_go();
    if let Some(out) = out {
        let written = files::create(out, &answered.reply, over);
        written.map_err(|stop| answered.untold(stop))?;
    }
    let asked = Asked {
        table,
        message,
        bytes,
        out,
    };
    asked.told(&before, &answered)
}

fn is_same(one: &Path, other: &Path) -> bool {
    let real = |path: &Path| path.canonicalize().ok();
    real(one).is_some() && real(one) == real(other)
}

/// What the library answered, and the bytes that the table file has to have then.
struct Answered {
    number: u8,
    reply: calls::Reply,
    rows_compared: u64,
    after: Option<Vec<u8>>,
}

impl Answered {
    fn by(held: &Held, message: &[u8]) -> Answered {
        // A file that is cut short could become whole by the zeros behind it in a longer buffer. So the file itself is judged
        // first, and if it is bad the library is asked about no table at all: the reply is that of number 2.
        let length = calls::image_in(&held.bytes).map(<[u8]>::len);
        let mut buffer = length.map_or(Vec::new(), |_| held.bytes.clone());
        let file_length = buffer.len();
        buffer.resize(file_length.max(TABLE_BYTES), 0);
        let (number, reply, rows_compared) = calls::answer_compared(&mut buffer, message);
        let image = calls::image_in(&buffer).map_or(0, <[u8]>::len);
        // A file with more in it than the image is a dump of a buffer, and stays one.
        let is_dump = Some(file_length) != length;
        buffer.truncate(if is_dump {
            file_length.max(image)
        } else {
            image
        });
        let changed = number == 0 && buffer != held.bytes;
        Answered {
            number,
            reply,
            rows_compared,
            after: changed.then_some(buffer),
        }
    }

    /// What changed is on the disk before any reply is given. Where nothing changed, the reply, and a refusal too, rests on what
    /// is in the table; only of a bad table and a bad message it says nothing.
    fn store(&self, held: &Held) -> Result<(), Stop> {
        match &self.after {
            Some(bytes) => held.replace(bytes),
            None if self.number == 2 || self.number == 3 => Ok(()),
            None => held.sync(),
        }
    }

    /// A reply that could not be written is not lost: the box gives it again. A view that it has promised or started it refuses the
    /// second time, as an old one.
    fn untold(&self, stop: Stop) -> Stop {
        let again = match self.reply[1] {
            5 | 6 => "is refused with 10 old view, which then says that it was done",
            _ => "has the same reply",
        };
        match stop {
            Stop::Trouble(what) if self.after.is_some() => Stop::Trouble(format!(
                "{}. The table is stored: the same message again {}",
                what, again
            )),
            other => other,
        }
    }

    /// How many rows the search for the stamp compared, if a stamp was searched. That was done for messages 1 to 4 which were
    /// answered, and for those which were refused by what the table holds.
    fn compared_in_words(&self) -> String {
        let searched = match self.number {
            0 => matches!(self.reply[1], 1..=4),
            refusal => matches!(refusal, 5..=8),
        };
        if !searched {
            return String::new();
        }
        let rows = names::how_many(self.rows_compared as usize, "row");
        format!("; {} compared", rows)
    }

    /// The rows that the table had and has no more. Message 6 alone takes rows away: what too few boxes had heard of may be missing
    /// in the merge.
    fn gone(&self, before: &[u8]) -> Vec<Row> {
        let rows =
            |bytes: &[u8]| calls::image_in(bytes).map_or(Vec::new(), |image| Table::of(image).rows);
        let after = self.after.as_ref().map(|bytes| rows(bytes));
        let is_gone = |row: &Row| {
            let stays = |after: &Vec<Row>| after.iter().any(|other| other.stamp == row.stamp);
            !after.as_ref().map_or(true, stays)
        };
        rows(before).into_iter().filter(is_gone).collect()
    }
}

/// What the user asked: the files, and the bytes of the message.
struct Asked<'a> {
    table: PathBuf,
    message: PathBuf,
    bytes: Vec<u8>,
    out: Option<&'a Path>,
}

impl Asked<'_> {
    fn told(&self, before: &[u8], answered: &Answered) -> Result<(String, Json), Stop> {
        if answered.number != 0 {
            return Err(self.refused(before, answered));
        }
        let reply = Reply::of(&answered.reply).expect("a reply of 24 bytes");
        let message = Message::of(&self.bytes);
        let held = Table::of(before);
        let gone = answered.gone(before);
        let text = format!(
            "{}: {}{}; {}{}{}\n",
            self.table.display(),
            reply.words_with(&said(&message, &reply)),
            reasons::result::words(&held, &message, &reply),
            if answered.after.is_some() {
                "the table is stored"
            } else {
                "the table stays as it was"
            },
            answered.compared_in_words(),
            gone_in_words(&gone)
        );
        let mut fields = reply.json();
        if let Message::Read { stamp, register } = message {
            fields.push(("register", Json::from(register)));
            fields.extend(stamps::json(stamps::READ, Some(stamp)));
        }
        let in_the_way = reasons::result::in_the_way(&held, &message, &reply);
        fields.push((
            "in_the_way",
            in_the_way.map_or(Json::Null, |found| found.json()),
        ));
        fields.push((
            "rows_gone",
            Json::List(gone.iter().map(Row::json).collect()),
        ));
        fields.extend(self.json(answered));
        Ok((text, Json::Object(fields)))
    }

    /// What a program wants to know of every answer, refusals too.
    fn json(&self, answered: &Answered) -> Vec<(&'static str, Json)> {
        let out = self.out.map(|out| Json::text(out.display().to_string()));
        vec![
            super::file_json(&self.table),
            ("table_changed", Json::Bool(answered.after.is_some())),
            ("rows_compared", Json::from(answered.rows_compared)),
            ("reply", Json::text(hex(&answered.reply))),
            ("reply_file", out.unwrap_or(Json::Null)),
        ]
    }

    fn refused(&self, before: &[u8], answered: &Answered) -> Stop {
        let number = answered.number;
        let found = match calls::image_in(before) {
            Some(image) => reasons::answer::reason(number, image, &self.bytes),
            None => wrong::reason(wrong::table::image(before)),
        };
        // The file that is wrong, if it is one of the two that is.
        let (path, bytes) = match number {
            3 => (&self.message, &*self.bytes),
            _ => (&self.table, before),
        };
        let hint = super::what_it_is(bytes).filter(|_| number == 2 || number == 3);
        let hint = hint.map(|what| format!(" (the file is {})", what));
        Stop::Refused(Refusal {
            number,
            what: path.display().to_string(),
            reason: found.0 + &hint.unwrap_or_default(),
            behind: answered.compared_in_words(),
            byte: found.1,
            more: self.json(answered),
        })
    }
}

/// What the box says; of a read also what was asked, which the reply does not have.
fn said(message: &Message, reply: &Reply) -> String {
    match message {
        Message::Read { stamp, register } => format!(
            "register {} as of {}: {}",
            register,
            stamps::short(*stamp),
            reply.said()
        ),
        _ => reply.said(),
    }
}

fn gone_in_words(gone: &[Row]) -> String {
    if gone.is_empty() {
        return String::new();
    }
    let rows: Vec<String> = gone.iter().map(Row::words).collect();
    format!(
        "; not in the table of the view, and so gone: {}: {}",
        names::how_many(gone.len(), "row"),
        rows.join("; ")
    )
}

pub fn hex(bytes: &[u8]) -> String {
    bytes.iter().map(|byte| format!("{:02x}", byte)).collect()
}
