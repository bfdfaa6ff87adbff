//! `check`: whether a file is well formed, and if not, what is wrong and at which byte.

use super::Kind;
use crate::ends::Stop;
use crate::image::Header;
use crate::json::Json;
use crate::reply::Reply;
use crate::words::Words;
use crate::{calls, files, names, wrong};
use std::path::Path;

pub fn run(words: &Words) -> Result<(String, Json), Stop> {
    let [path] = words.files(["the file"])?;
    match Kind::of(words)? {
        Kind::Table => table(&path),
        Kind::Message => message(&path),
        Kind::Reply => reply(&path),
    }
}

fn table(path: &Path) -> Result<(String, Json), Stop> {
    let (bytes, length) = super::table_file(path)?;
    let header = Header::at(&bytes);
    let behind = bytes.len() - length;
    let what = format!(
        "a table of box {} of {}, with {} in {} bytes; {}",
        header.box_number,
        header.n,
        names::how_many(header.rows as usize, "row"),
        length,
        follows(behind)
    );
    let more = vec![
        ("header", header.json()),
        ("bytes_behind", Json::from(behind)),
    ];
    Ok(well_formed(path, what, more))
}

fn follows(behind: usize) -> String {
    match behind {
        0 => "nothing follows".to_string(),
        1 => "1 byte follows that is no part of it".to_string(),
        _ => format!("{} bytes follow that are no part of it", behind),
    }
}

/// A message file that the library takes for a message.
pub fn message_file(path: &Path) -> Result<Vec<u8>, Stop> {
    let bytes = files::read(path)?;
    if calls::is_message(&bytes) {
        return Ok(bytes);
    }
    let found = wrong::message::message(&bytes, None);
    Err(super::refused_bytes(3, path, &bytes, found))
}

/// A reply file that holds a reply.
pub fn reply_file(path: &Path) -> Result<Reply, Stop> {
    let bytes = files::read(path)?;
    match (wrong::reply::reply(&bytes), Reply::of(&bytes)) {
        (Ok(()), Some(reply)) => Ok(reply),
        (found, _) => Err(super::refused_bytes(3, path, &bytes, found)),
    }
}

fn message(path: &Path) -> Result<(String, Json), Stop> {
    let bytes = message_file(path)?;
    let (kind, length) = (bytes[0], bytes.len());
    let what = format!(
        "message {}, {}, in {} bytes",
        kind,
        names::kind(kind),
        length
    );
    let more = vec![("kind", Json::from(kind)), ("length", Json::from(length))];
    Ok(well_formed(path, what, more))
}

fn reply(path: &Path) -> Result<(String, Json), Stop> {
    let reply = reply_file(path)?;
    let what = format!(
        "a reply numbered {} {}",
        reply.number,
        names::number(reply.number)
    );
    let more = vec![("reply_number", Json::from(reply.number))];
    Ok(well_formed(path, what, more))
}

fn well_formed(path: &Path, what: String, more: Vec<(&'static str, Json)>) -> (String, Json) {
    let text = format!("{}: well formed: {}\n", path.display(), what);
    let mut fields = super::done_json();
    fields.push(super::file_json(path));
    fields.push(("found", Json::text(what)));
    fields.extend(more);
    (text, Json::Object(fields))
}
