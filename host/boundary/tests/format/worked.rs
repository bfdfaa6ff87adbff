//! The worked bytes: each is what its words say, both programs take it, and a reply is what both of them answer.

use crate::agreed::{self, Answered};
use crate::layout::Layout;
use crate::page::{Item, Page};
use crate::replies;
use crate::words;
use crate::{same, Checked};
use reference::{Body, Counted, Message, Table};
use samples::TABLE_BYTES;

/// What the page has come to: the table that was shown last or that the last message left, that message and its answer.
#[derive(Default)]
struct Story {
    image: Vec<u8>,
    message: Vec<u8>,
    answered: Option<Answered>,
    before: Vec<u8>,
    merged: Vec<u8>,
    /// The bytes that were refused last as a table, and how they stand together.
    refused: (Vec<u8>, Vec<usize>),
}

/// So many items of each sort stand on the page at least; the label is how their words begin.
const LEAST: [(&str, usize); 24] = [
    ("stamp ", 1),
    ("fresh table: ", 1),
    ("table: ", 3),
    ("table after: ", 1),
    ("no table: ", 1),
    ("no message: ", 1),
    ("message 1, ", 1),
    ("message 2, ", 1),
    ("message 3, ", 1),
    ("message 4, ", 1),
    ("message 5, ", 1),
    ("message 6, ", 1),
    ("message 7, ", 1),
    ("reply to message 1: ", 1),
    ("reply to message 2: ", 1),
    ("reply to message 3: ", 1),
    ("reply to message 4: ", 1),
    ("reply to message 5: ", 1),
    ("reply to message 6: ", 1),
    ("reply to message 7: ", 1),
    ("refusal of message ", 1),
    ("record: ", 1),
    ("count of ", 3),
    ("valid: ", 1),
];

pub fn all(page: &Page) -> Checked {
    let items = page.worked()?;
    for (label, least) in LEAST {
        let met = items.iter().filter(|item| item.said[0].starts_with(label));
        let met = met.count();
        if met < least {
            return Err(format!("{} items begin with {:?}", met, label));
        }
    }
    let mut story = Story::default();
    for item in &items {
        let judged = story.judge(page, item);
        judged.map_err(|why| format!("{}: {:?}: {}", item.heading, item.said, why))?;
    }
    Ok(())
}

impl Story {
    fn judge(&mut self, page: &Page, item: &Item) -> Checked {
        let label = item.said[0].split(':').next().unwrap_or_default();
        match label {
            "fresh table" | "table" | "table after" | "merged table" => {
                self.table(page, item, label)
            }
            "no table" => self.no_table(page, item),
            "no message" => self.no_message(page, item),
            "counted reply" => counted_reply(page, item),
            "record" => record(page, item),
            "valid" => self.valid(page, item),
            _ if label.starts_with("stamp ") => stamp(page, item),
            _ if label.starts_with("message ") => self.message(page, item),
            _ if label.starts_with("reply to ") => self.reply(page, item),
            _ if label.starts_with("refusal of ") => self.refusal(page, item),
            _ if label.starts_with("count of ") => count(page, item),
            _ if label.starts_with("run for ") => self.run(page, item),
            _ => Err("there is no such structure".to_string()),
        }
    }

    fn table(&mut self, page: &Page, item: &Item, label: &str) -> Checked {
        let table = described_table(page, item, label)?;
        match label {
            "fresh table" => {
                let (number, buffer) = agreed::fresh(table.n, table.box_number, TABLE_BYTES)?;
                same("number", number, 0)?;
                same("fresh table", &buffer[..item.bytes.len()], &item.bytes[..])?;
            }
            "table after" => same("table after", &self.image, &item.bytes)?,
            "merged table" => same("merged table", &self.merged, &item.bytes)?,
            _ => self.image = item.bytes.clone(),
        }
        Ok(())
    }

    /// A message that is by the rules is what its words say, and both programs give it an answer other than 3.
    fn message(&mut self, page: &Page, item: &Item) -> Checked {
        let message = Message::parse(&item.bytes).ok_or("this is no message")?;
        same("words", &words::message(&message)[..], &owned(item)[..])?;
        same("bytes", &message.bytes(), &item.bytes)?;
        same("fields", &message_groups(page, &message)?, &item.groups)?;
        let answered = agreed::answered(&self.image, &item.bytes)?;
        if [2, 3].contains(&answered.number) {
            return Err(format!("refused with {}", answered.number));
        }
        self.before = std::mem::replace(&mut self.image, answered.image.clone());
        self.message = item.bytes.clone();
        self.answered = Some(answered);
        Ok(())
    }

    /// The message above with one thing changed, as the words say, is refused with 3.
    fn no_message(&self, page: &Page, item: &Item) -> Checked {
        let message = Message::parse(&self.message).ok_or("there is no message above")?;
        let above = format!("no message: message {} above, with ", message.kind());
        let mut expected = self.message.clone();
        let mut groups = message_groups(page, &message)?;
        match item.said[0].strip_prefix(&above[..]) {
            Some("a byte more") => {
                expected.push(0);
                groups.push(1);
            }
            Some(changed) => {
                let (field, value) = field_and_value(changed)?;
                page.layout(&heading(&message))?
                    .put(&mut expected, field, value)?;
            }
            None => return Err(format!("these words do not begin with {:?}", above)),
        }
        same("bytes", &expected, &item.bytes)?;
        same("fields", &groups, &item.groups)?;
        let answered = agreed::answered(&self.image, &item.bytes)?;
        same("number", answered.number, 3)
    }

    /// The table above with one field of a row changed, as the words say, is refused as a lent table with 2, and inside
    /// message 6 with 3.
    fn no_table(&mut self, page: &Page, item: &Item) -> Checked {
        let changed = item.said[0].strip_prefix("no table: the table above, with ");
        let changed = changed.and_then(|said| said.split_once(" in row "));
        let (changed, row) = changed.ok_or("what is changed, and in which row?")?;
        let row: usize = row.parse().map_err(|_| "that is no row")?;
        let (field, value) = field_and_value(changed)?;
        let layout = page.layout("Row")?;
        let begin = page.layout("Header")?.length(&[])? + layout.length(&[])? * row;
        let mut expected = self.image.clone();
        layout.put(&mut expected[begin..], field, value)?;
        same("bytes", &expected, &item.bytes)?;
        let (above, _) = Table::parse(&self.image).ok_or("there is no table above")?;
        same("fields", &image_groups(page, &above)?, &item.groups)?;
        same("number", agreed::table_number(&item.bytes)?, 2)?;
        let view = page.layout("Header")?.number(&item.bytes, "view")?;
        let message = samples::message::start_view(view as u32, &item.bytes);
        same("number", agreed::answered(&self.image, &message)?.number, 3)?;
        self.refused = (expected, item.groups.clone());
        Ok(())
    }

    /// Bytes that begin with an image, or those that were refused as a table.
    fn valid(&self, page: &Page, item: &Item) -> Checked {
        let word = agreed::valid(&item.bytes)?;
        let (said, table) = match Table::parse(&item.bytes) {
            Some((table, length)) => {
                same("fields", &image_groups(page, &table)?, &item.groups)?;
                let said = format!("an image of {} bytes", length);
                (said, words::table("table", &table))
            }
            None => {
                same("bytes", &self.refused.0, &item.bytes)?;
                same("fields", &self.refused.1, &item.groups)?;
                (words::number(reference::Number::BadTable), Vec::new())
            }
        };
        let first = format!("valid: {}, word {:#018x}", said, word);
        same("words", [vec![first], table].concat(), owned(item))
    }

    /// The table before the last message, that message as the second program has it, and what it was answered.
    fn exchange(&self) -> Checked<(Table, Message, &Answered)> {
        let table = Table::parse(&self.before).map(|(table, _)| table);
        match (table, Message::parse(&self.message), &self.answered) {
            (Some(table), Some(message), Some(answered)) => Ok((table, message, answered)),
            _ => Err("there is no message above".to_string()),
        }
    }

    fn reply(&self, page: &Page, item: &Item) -> Checked {
        let (table, message, answered) = self.exchange()?;
        same("reply", &answered.reply, &item.bytes)?;
        let done = reference::respond(reference::VALLEY, &table, &message);
        let (after, reply) = done.map_err(|number| format!("refused with {:?}", number))?;
        same("words", words::reply(&reply), item.said.join("\n"))?;
        replies::said(page, &message, &after, &item.bytes)?;
        let known = [("n", u128::from(table.n))];
        fits(&page.layout("Reply")?, item)?;
        page.layout("Reply")?.allows(&item.bytes, &known)
    }

    fn refusal(&self, page: &Page, item: &Item) -> Checked {
        let (table, message, answered) = self.exchange()?;
        same("reply", &answered.reply, &item.bytes)?;
        let number = reference::respond(reference::VALLEY, &table, &message).err();
        let number = number.map_or(String::new(), words::number);
        let words = format!("refusal of message {}: {}", message.kind(), number);
        same("words", words, item.said.join("\n"))?;
        fits(&page.layout("Refusal")?, item)?;
        page.layout("Refusal")?.allows(&item.bytes, &[])
    }

    fn run(&mut self, page: &Page, item: &Item) -> Checked {
        let view = item.said[0].trim_start_matches("run for view ");
        let view: u32 = view.parse().map_err(|_| "that is no view")?;
        let tables = reference::merge::tables_of_run(reference::VALLEY, &item.bytes);
        let tables = tables.ok_or("this is no run")?;
        let words = tables.iter().flat_map(|table| words::table("table", table));
        same("words", words.collect(), owned(item)[1..].to_vec())?;
        let groups: Checked<Vec<Vec<usize>>> = tables
            .iter()
            .map(|table| image_groups(page, table))
            .collect();
        same("fields", &groups?.concat(), &item.groups)?;
        let (number, out) = agreed::merged(&item.bytes, view, TABLE_BYTES)?;
        same("number", number, 0)?;
        let (_, length) = Table::parse(&out).ok_or("the output is no image")?;
        self.merged = out[..length].to_vec();
        Ok(())
    }
}

/// The heading of a message's section.
fn heading(message: &Message) -> String {
    format!("Message {}: {}", message.kind(), words::kind(message))
}

/// A field and its value in words: `register 64`, `retry stamp 3:0`.
fn field_and_value(said: &str) -> Checked<(&str, u64)> {
    let wrong = || format!("{:?} is no field with a value", said);
    let (field, value) = said.rsplit_once(' ').ok_or_else(wrong)?;
    let number = |part: &str| part.parse::<u64>().map_err(|_| wrong());
    match value.split_once(':') {
        Some((time, client)) => Ok((field, number(time)? * 65_536 + number(client)?)),
        None => Ok((field, number(value)?)),
    }
}

fn owned(item: &Item) -> Vec<String> {
    item.said.iter().map(|line| line.to_string()).collect()
}

/// That the bytes stand in groups as the fields of a structure do, one such structure after the other.
fn fits(layout: &Layout, item: &Item) -> Checked {
    let widths: Vec<usize> = widths(layout)?;
    let times = item.groups.len() / widths.len().max(1);
    same("fields", &widths.repeat(times), &item.groups)
}

/// The widths of the fields that have a fixed one.
fn widths(layout: &Layout) -> Checked<Vec<usize>> {
    layout.numbers().map(|field| field.width(&[])).collect()
}

/// How the bytes of a body stand together: as the fields of each read and of each write.
fn body_groups(page: &Page, body: &Body) -> Checked<Vec<usize>> {
    let reads = widths(&page.layout("Read of a body")?)?;
    let writes = widths(&page.layout("Write of a body")?)?;
    Ok([
        reads.repeat(body.reads.len()),
        writes.repeat(body.writes.len()),
    ]
    .concat())
}

/// How the bytes of an image stand together: as the fields of the header, of each row and of each body.
fn image_groups(page: &Page, table: &Table) -> Checked<Vec<usize>> {
    let mut groups = widths(&page.layout("Header")?)?;
    groups.extend(widths(&page.layout("Row")?)?.repeat(table.rows.len()));
    for row in table.rows.values() {
        groups.extend(body_groups(page, &row.body)?);
    }
    Ok(groups)
}

/// How the bytes of a message stand together: as its fields, and those of its body or image.
fn message_groups(page: &Page, message: &Message) -> Checked<Vec<usize>> {
    let mut groups = widths(&page.layout(&heading(message))?)?;
    groups.extend(match message {
        Message::ProposePrepare { body, .. } | Message::ProposeOutcome { body, .. } => {
            body_groups(page, body)?
        }
        Message::StartView { image, .. } => image_groups(page, image)?,
        _ => Vec::new(),
    });
    Ok(groups)
}

/// An image that both programs take, as the second one reads it; its words and its fields are those of the page.
fn described_table(page: &Page, item: &Item, label: &str) -> Checked<Table> {
    let (table, length) = Table::parse(&item.bytes).ok_or("this is no image")?;
    same("length", length, item.bytes.len())?;
    same("word", agreed::valid(&item.bytes)?, (length as u64) << 16)?;
    same("words", &words::table(label, &table)[..], &owned(item)[..])?;
    same("fields", &image_groups(page, &table)?, &item.groups)?;
    Ok(table)
}

/// A stamp is read as time and client from where the page has them, and a message with it is one with that stamp.
fn stamp(page: &Page, item: &Item) -> Checked {
    let layout = page.layout("Stamp")?;
    fits(&layout, item)?;
    layout.allows(&item.bytes, &[])?;
    let part = |name: &str| layout.number(&item.bytes, name);
    let words = format!("stamp {}:{}", part("time")?, part("client")?);
    same("words", words, item.said.join("\n"))?;
    let message = [&[7], &item.bytes[..], &[0]].concat();
    let stamp = part("time")? * 65_536 + part("client")?;
    let expected = Message::Read { stamp, register: 0 };
    same("message", Message::parse(&message), Some(expected))
}

fn counted_reply(page: &Page, item: &Item) -> Checked {
    fits(&page.layout("Counted reply")?, item)?;
    let reply = Counted::parse(&item.bytes).ok_or("this is no reply")?;
    same(
        "words",
        words::counted("counted reply", &reply),
        item.said.join("\n"),
    )?;
    same("number", agreed::counted(7, &item.bytes)? as u8, 0)
}

/// The bytes of the struct are those of the counted reply with the same words, and are counted as it is.
fn record(page: &Page, item: &Item) -> Checked {
    fits(&page.layout("Record in C")?, item)?;
    let records = agreed::records_of(&item.bytes)?;
    let lent = records.first().ok_or("there is no record")?;
    let result = reference::PrepareResult::from_code(lent.result, lent.retry);
    let reply = Counted {
        box_number: lent.box_number,
        view: lent.view,
        result: result.ok_or("this is no result")?,
        is_final: lent.is_final == 1,
    };
    same(
        "words",
        words::counted("record", &reply),
        item.said.join("\n"),
    )?;
    same("final", lent.is_final, u8::from(reply.is_final))?;
    same("padding", item.bytes[3], 0)?;
    let word = agreed::counted(7, &reply.bytes())?;
    same("word", boundary::count_records(7, &records), word)
}

/// The replies are what their words say, and both programs count them to what the first line says.
fn count(page: &Page, item: &Item) -> Checked {
    let layout = page.layout("Counted reply")?;
    fits(&layout, item)?;
    let length = layout.length(&[])?;
    let said = item.said[0].trim_start_matches("count of ");
    let n: u8 = said
        .split(' ')
        .next()
        .and_then(|n| n.parse().ok())
        .ok_or("of how many boxes?")?;
    let decided = reference::count::count_bytes(n, &item.bytes);
    let word = agreed::counted(n, &item.bytes)?;
    let decision = words::decision(decided);
    let mut words = vec![format!(
        "count of {} boxes: {}, word {:#018x}",
        n, decision, word
    )];
    for bytes in item.bytes.chunks(length) {
        let reply = Counted::parse(bytes).ok_or("this is no reply")?;
        words.push(words::counted("counted reply", &reply));
    }
    same("words", &words[..], &owned(item)[..])
}
