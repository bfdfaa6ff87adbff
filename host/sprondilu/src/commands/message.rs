//! `message`: one of the seven messages, from words.

use crate::ends::Stop;
use crate::image::{Access, Body};
use crate::json::Json;
use crate::message::Message;
use crate::stamps::{self, Typed};
use crate::words::{number, stamp, usage, Words};
use crate::{calls, files, names, wrong};
use std::path::Path;

pub fn run(words: &Words) -> Result<(String, Json), Stop> {
    let over = words.over("--out", "message", calls::is_message)?;
    let text = words.text();
    let mut rest = text.iter().map(String::as_str);
    let message = from_words(&mut rest, words)?;
    if let Some(word) = rest.next() {
        return Err(usage(format!("'{}' is one word too many", word)));
    }
    let bytes = message.bytes();
    // Its stamps are stamps; whether the rest of what the words say is by the rules of a message, the library says.
    if !calls::is_message(&bytes) {
        return Err(against_a_rule(&bytes));
    }
    let hex = super::answer::hex(&bytes);
    let told = match words.path("--out") {
        Some(out) => {
            files::create(out, &bytes, over)?;
            format!(
                "{}: {} ({} bytes)\n",
                out.display(),
                message.words(),
                bytes.len()
            )
        }
        None => format!("{}\n{}\n", message.words(), hex),
    };
    Ok((told, json(&message, &bytes, words.path("--out"))))
}

/// The words say something that no message may say. Nobody has seen its bytes, so it is not said at which of them.
fn against_a_rule(bytes: &[u8]) -> Stop {
    let reason = match wrong::message::message(bytes, None) {
        Err(wrong) => wrong.what,
        Ok(()) => wrong::NOT_SEEN.to_string(),
    };
    super::refused(3, "the message", reason)
}

fn json(message: &Message, bytes: &[u8], out: Option<&Path>) -> Json {
    let mut fields = super::done_json();
    fields.push(("message", message.json()));
    fields.push(("length", Json::from(bytes.len())));
    fields.push(("bytes", Json::text(super::answer::hex(bytes))));
    fields.extend(out.map(super::file_json));
    Json::Object(fields)
}

/// The next word, which has to be there.
fn next<'a>(rest: &mut impl Iterator<Item = &'a str>, what: &str) -> Result<&'a str, Stop> {
    rest.next()
        .ok_or_else(|| usage(format!("{} is missing", what)))
}

fn from_words<'a>(
    rest: &mut impl Iterator<Item = &'a str>,
    words: &Words,
) -> Result<Message, Stop> {
    let name = next(rest, "the kind of message")?;
    let kind = names::kind_named(name).ok_or_else(|| usage(no_such_kind(name)))?;
    match kind {
        7 => read(rest, words),
        _ if words.gives("--at") => Err(usage(format!("--at is for read, and not for {}", name))),
        5 => Ok(Message::ChangeView { view: view(rest)? }),
        6 => start_view(rest, words),
        3 if words.plain.get(1).map_or(false, |word| word == "like") => like(rest, words),
        _ => stamped(kind, rest),
    }
}

fn no_such_kind(name: &str) -> String {
    let kinds: Vec<String> = (1..8).map(names::kind_word).collect();
    format!(
        "there is no message '{}'; there are {}",
        name,
        kinds.join(", ")
    )
}

/// The messages about the transaction of a stamp.
#[rustfmt::skip]
fn stamped<'a>(kind: u8, rest: &mut impl Iterator<Item = &'a str>) -> Result<Message, Stop> {
    let stamp = stamp(next(rest, "the stamp")?, Typed::Transaction)?;
    Ok(match kind {
        1 => Message::ProposePrepare { stamp, body: body(rest)? },
        2 => {
            let view = named_view(rest)?;
            let (result, retry_stamp) = result(rest)?;
            Message::FinalisePrepare { stamp, view, result, retry_stamp }
        }
        3 => Message::ProposeOutcome { stamp, verdict: verdict(rest)?, body: body(rest)? },
        _ => Message::FinaliseOutcome { stamp, view: named_view(rest)?, verdict: verdict(rest)? },
    })
}

/// `read STAMP register K`, or `read --at TIME register K`, which is the last stamp of that time.
fn read<'a>(rest: &mut impl Iterator<Item = &'a str>, words: &Words) -> Result<Message, Stop> {
    let times = format!("a time from 0 to {}", stamps::GREATEST_TIME);
    let at = words.number_if_given("--at", stamps::GREATEST_TIME, &times)?;
    let (stamp, behind) = match at {
        Some(time) => (
            stamps::last_at(time),
            "--at TIME, which takes the stamp's place",
        ),
        None => (stamp(next(rest, "the stamp")?, Typed::Read)?, "the stamp"),
    };
    let register = register(rest, behind)?;
    Ok(Message::Read { stamp, register })
}

fn view<'a>(rest: &mut impl Iterator<Item = &'a str>) -> Result<u32, Stop> {
    let view = number(next(rest, "the view")?, "a view", u64::from(u32::MAX))?;
    Ok(view as u32)
}

/// `view V`
fn named_view<'a>(rest: &mut impl Iterator<Item = &'a str>) -> Result<u32, Stop> {
    match next(rest, "the view")? {
        "view" => view(rest),
        other => Err(usage(format!(
            "the words 'view V' stand behind the stamp, not '{}'",
            other
        ))),
    }
}

/// `register K`, behind what says when.
fn register<'a>(rest: &mut impl Iterator<Item = &'a str>, behind: &str) -> Result<u8, Stop> {
    match next(rest, "the register")? {
        "register" => Ok(number(next(rest, "the register")?, "a register", 255)? as u8),
        other => Err(usage(format!(
            "the words 'register K' stand behind {}, not '{}'",
            behind, other
        ))),
    }
}

fn verdict<'a>(rest: &mut impl Iterator<Item = &'a str>) -> Result<u8, Stop> {
    match next(rest, "the outcome")? {
        "commit" => Ok(1),
        "abort" => Ok(2),
        other => Err(usage(format!(
            "an outcome is commit or abort, not '{}'",
            other
        ))),
    }
}

/// `OK`, `ABORT`, `ABSTAIN` or `RETRY STAMP`.
fn result<'a>(rest: &mut impl Iterator<Item = &'a str>) -> Result<(u8, u64), Stop> {
    let word = next(rest, "the result")?;
    match word.to_uppercase().as_str() {
        "OK" => Ok((1, 0)),
        "ABORT" => Ok((2, 0)),
        "ABSTAIN" => Ok((3, 0)),
        "RETRY" => Ok((4, stamp(next(rest, "the retry stamp")?, Typed::Retry)?)),
        _ => Err(usage(format!(
            "a result is OK, ABORT, ABSTAIN or RETRY STAMP, not '{}'",
            word
        ))),
    }
}

/// `propose-outcome like FILE commit`: the transaction of a message file, which is safer than to type it again: "one stamp, one
/// body".
fn like<'a>(rest: &mut impl Iterator<Item = &'a str>, words: &Words) -> Result<Message, Stop> {
    rest.next();
    next(rest, "the message file")?;
    let path = Path::new(&words.plain[2]);
    let bytes = super::check::message_file(path)?;
    match Message::of(&bytes) {
        Message::ProposePrepare { stamp, body } | Message::ProposeOutcome { stamp, body, .. } => {
            let verdict = verdict(rest)?;
            Ok(Message::ProposeOutcome {
                stamp,
                verdict,
                body,
            })
        }
        other => Err(usage(format!(
            "{} is a {}, and proposes no transaction",
            path.display(),
            names::kind(other.kind())
        ))),
    }
}

/// `start-view V FILE`: the image that the file begins with. The name of a file need not be text.
fn start_view<'a>(
    rest: &mut impl Iterator<Item = &'a str>,
    words: &Words,
) -> Result<Message, Stop> {
    let view = view(rest)?;
    next(rest, "the table file of the merge")?;
    let image = super::settled_image(Path::new(&words.plain[2]))?;
    Ok(Message::StartView { view, image })
}

/// `read K@VERSION .. write K=VALUE ..`, laid in the order of their registers.
fn body<'a>(rest: &mut impl Iterator<Item = &'a str>) -> Result<Body, Stop> {
    let mut body = Body::default();
    let mut list = None;
    for word in rest {
        match (word, list) {
            ("read", _) => list = Some('@'),
            ("write", _) => list = Some('='),
            (word, Some('@')) => body.reads.push(access(word, '@')?),
            (word, Some(_)) => body.writes.push(access(word, '=')?),
            (word, None) => {
                return Err(usage(format!(
                    "the word read or write stands before '{}'",
                    word
                )))
            }
        }
    }
    for accesses in [&mut body.reads, &mut body.writes] {
        if accesses.len() > 255 {
            return Err(usage("a body has at most 4 reads and 4 writes"));
        }
        accesses.sort_by_key(|access| access.register);
    }
    Ok(body)
}

fn access(word: &str, between: char) -> Result<Access, Stop> {
    let (register, number_word) = word.split_once(between).ok_or_else(|| {
        usage(format!(
            "a read is written REGISTER@VERSION and a write REGISTER=VALUE, not '{}'",
            word
        ))
    })?;
    let register = number(register, "a register", 255)? as u8;
    let number = match between {
        '@' => stamp(number_word, Typed::Version)?,
        _ => number(number_word, "a value", u64::MAX)?,
    };
    Ok(Access { register, number })
}
