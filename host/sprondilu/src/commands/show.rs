//! `show`: a file for people.

use super::{check, Kind};
use crate::ends::Stop;
use crate::image::{Header, Row, Table, MOST_ROWS};
use crate::json::Json;
use crate::message::Message;
use crate::words::Words;
use crate::{names, room, stamps};
use std::fmt::Write;
use std::path::Path;

pub fn run(words: &Words) -> Result<(String, Json), Stop> {
    let [path] = words.files(["the file"])?;
    match Kind::of(words)? {
        Kind::Table => table(&path),
        Kind::Message => message(&path),
        Kind::Reply => reply(&path),
    }
}

fn table(path: &Path) -> Result<(String, Json), Stop> {
    let (bytes, length) = super::table_file(path)?;
    let table = Table::of(&bytes[..length]);
    let mut text = in_words(&table);
    let behind = bytes.len() - length;
    if behind > 0 {
        let _ = writeln!(
            text,
            "\n{} more bytes follow in the file; they are no part of the table.",
            behind
        );
    }
    let mut fields = super::done_json();
    fields.push(super::file_json(path));
    fields.push(("table", table.json()));
    fields.push(("bytes_behind", Json::from(behind)));
    Ok((text, Json::Object(fields)))
}

/// A table for people: its header, then its rows in stamp order.
pub fn in_words(table: &Table) -> String {
    let header = &table.header;
    let mut text = String::new();
    let _ = writeln!(text, "box {} of {}", header.box_number, header.n);
    let _ = match header.mode {
        0 => writeln!(text, "normal in view {}", header.view),
        _ => writeln!(
            text,
            "changing: it has left view {} and promised view {}",
            header.view, header.promised
        ),
    };
    let _ = writeln!(
        text,
        "{} of at most {}; view {} began with {}{}\n{} bytes",
        names::how_many(header.rows as usize, "row"),
        MOST_ROWS,
        header.view,
        header.start_rows,
        room_in_words(header),
        header.length
    );
    if !table.rows.is_empty() {
        text.push('\n');
        text.push_str(&columns(&table.rows));
    }
    text
}

/// How many rows may still be added in this view. Of a box that has left its view nothing is said: it takes no new stamp.
fn room_in_words(header: &Header) -> String {
    match (header.mode, room::left(header)) {
        (0, 0) => "; no room for more in this view".to_string(),
        (0, left) => format!("; room for {} more in this view", left),
        _ => String::new(),
    }
}

/// The rows, a line each, in columns as wide as what stands in them.
fn columns(rows: &[Row]) -> String {
    let heads = ["stamp", "time", "client", "prepare", "outcome", "body"].map(str::to_string);
    let mut lines = vec![heads];
    lines.extend(rows.iter().map(|row| {
        [
            row.stamp.to_string(),
            stamps::time(row.stamp).to_string(),
            stamps::client(row.stamp).to_string(),
            names::prepare(row.prepare, row.retry_stamp),
            names::outcome(row.outcome).to_string(),
            row.body.words(),
        ]
    }));
    let width = |column: usize| {
        lines
            .iter()
            .map(|line| line[column].len())
            .max()
            .unwrap_or(0)
    };
    let widths: Vec<usize> = (0..6).map(width).collect();
    let mut text = String::new();
    for line in &lines {
        let cells =
            line.iter()
                .zip(&widths)
                .enumerate()
                .map(|(column, (cell, width))| match column {
                    // Numbers end under each other.
                    0..=2 => format!("{:>1$}", cell, width),
                    _ => format!("{:<1$}", cell, width),
                });
        let cells: Vec<String> = cells.collect();
        let _ = writeln!(text, "{}", cells.join("  ").trim_end());
    }
    text
}

fn message(path: &Path) -> Result<(String, Json), Stop> {
    let message = Message::of(&check::message_file(path)?);
    let kind = message.kind();
    let mut text = format!(
        "message {}, {}\n{}\n",
        kind,
        names::kind(kind),
        message.words()
    );
    if let Message::StartView { image, .. } = &message {
        let _ = write!(text, "\nThe image:\n{}", in_words(&Table::of(image)));
    }
    let mut fields = super::done_json();
    fields.push(super::file_json(path));
    fields.push(("message", message.json()));
    Ok((text, Json::Object(fields)))
}

fn reply(path: &Path) -> Result<(String, Json), Stop> {
    let reply = check::reply_file(path)?;
    let mut fields = super::done_json();
    fields.push(super::file_json(path));
    fields.push(("reply", Json::Object(reply.json())));
    Ok((format!("{}\n", reply.words()), Json::Object(fields)))
}
