//! Answers for programs, one JSON value each.

use std::fmt;

/// A JSON value. Numbers here are below 2^53, so that every reader of JSON has them whole; a register's value, which may be
/// any of 8 bytes, is written as text.
#[derive(Clone, Debug, PartialEq, Eq)]
pub enum Json {
    Null,
    Bool(bool),
    Number(u64),
    Text(String),
    List(Vec<Json>),
    Object(Vec<(&'static str, Json)>),
}

impl Json {
    pub fn text(words: impl Into<String>) -> Json {
        Json::Text(words.into())
    }
}

impl From<u8> for Json {
    fn from(number: u8) -> Json {
        Json::Number(u64::from(number))
    }
}

impl From<u32> for Json {
    fn from(number: u32) -> Json {
        Json::Number(u64::from(number))
    }
}

impl From<u64> for Json {
    fn from(number: u64) -> Json {
        Json::Number(number)
    }
}

impl From<usize> for Json {
    fn from(number: usize) -> Json {
        Json::Number(number as u64)
    }
}

impl fmt::Display for Json {
    fn fmt(&self, out: &mut fmt::Formatter) -> fmt::Result {
        match self {
            Json::Null => write!(out, "null"),
            Json::Bool(truth) => write!(out, "{}", truth),
            Json::Number(number) => write!(out, "{}", number),
            Json::Text(words) => quoted(words, out),
            Json::List(items) => between(out, '[', ']', items, |item, out| write!(out, "{}", item)),
            Json::Object(fields) => between(out, '{', '}', fields, |(name, value), out| {
                quoted(name, out)?;
                write!(out, ": {}", value)
            }),
        }
    }
}

fn between<Item>(
    out: &mut fmt::Formatter,
    open: char,
    close: char,
    items: &[Item],
    one: impl Fn(&Item, &mut fmt::Formatter) -> fmt::Result,
) -> fmt::Result {
    write!(out, "{}", open)?;
    for (place, item) in items.iter().enumerate() {
        if place > 0 {
            write!(out, ", ")?;
        }
        one(item, out)?;
    }
    write!(out, "{}", close)
}

fn quoted(words: &str, out: &mut fmt::Formatter) -> fmt::Result {
    write!(out, "\"")?;
    for letter in words.chars() {
        match letter {
            '"' => write!(out, "\\\"")?,
            '\\' => write!(out, "\\\\")?,
            letter if (letter as u32) < 0x20 => write!(out, "\\u{:04x}", letter as u32)?,
            letter => write!(out, "{}", letter)?,
        }
    }
    write!(out, "\"")
}
