//! The names of document 01 for its codes, in words and for programs.

use crate::json::Json;
use crate::stamps;

const NUMBERS: [&str; 12] = [
    "done",
    "small buffer",
    "bad table",
    "bad message",
    "changing",
    "other body",
    "contradiction",
    "full",
    "unknown",
    "other view",
    "old view",
    "wrong tables",
];

/// `1 row`, `2 rows`
pub fn how_many(number: usize, thing: &str) -> String {
    format!("{} {}{}", number, thing, if number == 1 { "" } else { "s" })
}

/// What is wrong with another n than groups have.
pub fn bad_n(n: u8) -> String {
    format!("n is {}, and groups have 3, 5 or 7 boxes", n)
}

/// The name of a number that a call returned.
pub fn number(number: u8) -> &'static str {
    NUMBERS
        .get(usize::from(number))
        .copied()
        .unwrap_or("no number of the list")
}

const KINDS: [&str; 8] = [
    "no message",
    "propose prepare",
    "finalise prepare",
    "propose outcome",
    "finalise outcome",
    "change view",
    "start view",
    "read",
];

/// The name of a message's kind.
pub fn kind(kind: u8) -> &'static str {
    KINDS.get(usize::from(kind)).copied().unwrap_or(KINDS[0])
}

/// The name of a kind as the command line has it: one word.
pub fn kind_word(code: u8) -> String {
    kind(code).replace(' ', "-")
}

/// The kind of that name, with a hyphen or a space between its words.
pub fn kind_named(words: &str) -> Option<u8> {
    let name = words.replace('-', " ");
    (1..8).find(|code| kind(*code) == name)
}

const RESULTS: [&str; 5] = ["none", "OK", "ABORT", "ABSTAIN", "RETRY"];

/// A result of the check, 1 to 4, with its retry stamp if it has one.
pub fn result(code: u8, retry_stamp: u64) -> String {
    let name = RESULTS
        .get(usize::from(code))
        .copied()
        .unwrap_or("no result");
    if code == 4 {
        format!("{} {}", name, stamps::short(retry_stamp))
    } else {
        name.to_string()
    }
}

/// The same for a program: the name alone, and the stamp if there is one.
pub fn result_json(code: u8, retry_stamp: u64) -> Vec<(&'static str, Json)> {
    let name = RESULTS.get(usize::from(code)).copied();
    let stamp = Some(retry_stamp).filter(|_| code == 4);
    let mut fields = vec![("result", name.map_or(Json::Null, Json::text))];
    fields.extend(stamps::json(stamps::RETRY, stamp));
    fields
}

/// "Prepare: 0 none; 1 to 4 tentative OK, ABORT, ABSTAIN, RETRY; 5 to 8 the same, final."
pub fn prepare(byte: u8, retry_stamp: u64) -> String {
    match byte {
        0 => RESULTS[0].to_string(),
        1..=4 => format!("tentative {}", result(byte, retry_stamp)),
        5..=8 => format!("final {}", result(byte - 4, retry_stamp)),
        _ => "no prepare".to_string(),
    }
}

/// A prepare byte for a program: null for none.
pub fn prepare_json(byte: u8, retry_stamp: u64) -> Json {
    if byte == 0 {
        return Json::Null;
    }
    let is_final = byte > 4;
    let mut fields = result_json(if is_final { byte - 4 } else { byte }, retry_stamp);
    fields.push(("final", Json::Bool(is_final)));
    fields.push(("byte", Json::from(byte)));
    Json::Object(fields)
}

const OUTCOMES: [&str; 5] = [
    "none",
    "commit noted",
    "abort noted",
    "commit done",
    "abort done",
];

/// "Outcome: 0 none, 1 commit noted, 2 abort noted, 3 commit done, 4 abort done."
pub fn outcome(byte: u8) -> &'static str {
    OUTCOMES
        .get(usize::from(byte))
        .copied()
        .unwrap_or("no outcome")
}

/// An outcome byte for a program: null for none.
pub fn outcome_json(byte: u8) -> Json {
    if byte == 0 {
        return Json::Null;
    }
    let is_done = byte > 2;
    Json::Object(vec![
        (
            "outcome",
            Json::text(verdict(if is_done { byte - 2 } else { byte })),
        ),
        ("done", Json::Bool(is_done)),
        ("byte", Json::from(byte)),
    ])
}

/// What a message 3 or 4 says: 1 commit or 2 abort.
pub fn verdict(code: u8) -> &'static str {
    match code {
        1 => "commit",
        2 => "abort",
        _ => "neither commit nor abort",
    }
}

/// "mode (0 normal, 1 changing)"
pub fn mode(mode: u8) -> &'static str {
    match mode {
        0 => "normal",
        1 => "changing",
        _ => "in no mode",
    }
}
