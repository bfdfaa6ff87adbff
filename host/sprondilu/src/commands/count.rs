//! `count`: what the replies of boxes to messages 1 and 2 come to.

use crate::calls::{self, Counted, Record};
use crate::ends::Stop;
use crate::json::Json;
use crate::reasons::count::{reason, Named};
use crate::words::{usage, Words};
use crate::{names, stamps};
use std::fmt::Write;
use std::path::{Path, PathBuf};

/// The code of the result OK.
const OK: u8 = 1;

/// "Fast count: three f halves, rounded up, plus one."
pub fn fast_count(n: u8) -> usize {
    let f = usize::from(n / 2);
    (3 * f + 1) / 2 + 1
}

/// f+1
pub fn quorum(n: u8) -> usize {
    usize::from(n / 2) + 1
}

pub fn run(words: &Words) -> Result<(String, Json), Stop> {
    let n = words.n()?;
    let mut heard = Heard::default();
    for path in words.plain.iter().map(PathBuf::from) {
        heard.take(&path)?;
    }
    let records: Vec<Record> = heard.counted.iter().map(|reply| reply.record).collect();
    let counted = calls::count(n, &records)
        .map_err(|number| super::refused(number, "the count", reason(number, n, &heard.counted)))?;
    Ok((heard.words(n, counted), heard.json(n, counted)))
}

/// The replies that are counted, and those that are answers numbered otherwise than 0, which hold no result.
#[derive(Default)]
struct Heard {
    counted: Vec<Named>,
    left_out: Vec<(String, u8)>,
    /// The stamp that they are about, with the file that said it first.
    about: Option<(u64, String)>,
}

impl Heard {
    fn take(&mut self, path: &Path) -> Result<(), Stop> {
        let reply = super::check::reply_file(path)?;
        let name = path.display().to_string();
        if reply.number != 0 {
            self.left_out.push((name, reply.number));
            return Ok(());
        }
        if reply.kind > 2 {
            return Err(usage(format!(
                "{} is a reply to message {}, and the count is of replies to messages 1 and 2",
                name, reply.kind
            )));
        }
        self.is_about(reply.stamp, &name)?;
        self.counted.push(Named {
            name,
            record: reply.record(),
            confirms: reply.kind == 2,
        });
        Ok(())
    }

    /// The library is lent no stamps, so whether the replies are about one transaction is seen to here.
    fn is_about(&mut self, stamp: u64, name: &str) -> Result<(), Stop> {
        match &self.about {
            None => self.about = Some((stamp, name.to_string())),
            Some((first, earlier)) if *first != stamp => {
                return Err(usage(format!(
                    "{} is about {}, and {} about {}: replies for one stamp are counted",
                    earlier,
                    stamps::short(*first),
                    name,
                    stamps::short(stamp)
                )))
            }
            Some(_) => {}
        }
        Ok(())
    }

    /// Rule 4: "confirmations (number 0) of message 2 by f+1 different boxes, in one view". The library has seen to it that the
    /// boxes differ and the view is one, and two final results would be a contradiction.
    fn is_confirmed(&self, n: u8) -> bool {
        self.confirmations() >= quorum(n)
    }

    fn confirmations(&self) -> usize {
        self.counted.iter().filter(|reply| reply.confirms).count()
    }

    fn words(&self, n: u8, counted: Counted) -> String {
        let mut text = String::new();
        for reply in &self.counted {
            let _ = writeln!(text, "{}", reply_in_words(reply, self.about.as_ref()));
        }
        for (name, number) in &self.left_out {
            let _ = writeln!(
                text,
                "{}: not counted: the box refused with {} {}",
                name,
                number,
                names::number(*number)
            );
        }
        let how_many = self.counted.len();
        let _ = match counted {
            Counted::Slow {
                result,
                retry_stamp,
            } if self.is_confirmed(n) => writeln!(
                text,
                "{}: {} have confirmed final {} in this view: it may be declared final",
                replies_of(how_many, n),
                self.confirmations(),
                names::result(result, retry_stamp)
            ),
            _ => writeln!(text, "{}", in_words(n, how_many, counted)),
        };
        if is_ok(counted) {
            let _ = writeln!(text, "{}", not_recorded_yet(n));
        }
        text
    }

    fn json(&self, n: u8, counted: Counted) -> Json {
        let stamp = self.about.as_ref().map(|(stamp, _)| *stamp);
        let view = self.counted.first().map(|reply| reply.record.view);
        let is_fast = matches!(counted, Counted::Fast { .. });
        let mut fields = super::done_json();
        fields.extend(vec![
            ("n", Json::from(n)),
            ("quorum", Json::from(quorum(n))),
            ("fast_count", Json::from(fast_count(n))),
        ]);
        fields.extend(stamps::json(stamps::STAMP, stamp));
        fields.extend(vec![
            ("view", view.map_or(Json::Null, Json::from)),
            (
                "replies",
                Json::List(self.counted.iter().map(reply_json).collect()),
            ),
            (
                "left_out",
                Json::List(self.left_out.iter().map(left_out_json).collect()),
            ),
            ("confirmations", Json::from(self.confirmations())),
        ]);
        fields.extend(counted_json(counted));
        fields.push(("may_declare", Json::Bool(is_fast || self.is_confirmed(n))));
        Json::Object(fields)
    }
}

fn reply_in_words(reply: &Named, about: Option<&(u64, String)>) -> String {
    let Record {
        box_number,
        view,
        result,
        retry,
        is_final,
    } = reply.record;
    format!(
        "{}: box {} in view {}: {} for {}",
        reply.name,
        box_number,
        view,
        names::prepare(result + 4 * is_final, retry),
        about.map_or(String::new(), |(stamp, _)| stamps::short(*stamp))
    )
}

fn reply_json(reply: &Named) -> Json {
    let record = reply.record;
    let mut fields = vec![
        ("file", Json::text(&reply.name)),
        ("box", Json::from(record.box_number)),
    ];
    fields.extend(names::result_json(record.result, record.retry));
    fields.push(("final", Json::Bool(record.is_final != 0)));
    fields.push(("confirms", Json::Bool(reply.confirms)));
    Json::Object(fields)
}

fn left_out_json((name, number): &(String, u8)) -> Json {
    Json::Object(vec![
        ("file", Json::text(name)),
        ("number", Json::from(*number)),
        ("name", Json::text(names::number(*number))),
    ])
}

#[rustfmt::skip]
fn counted_json(counted: Counted) -> Vec<(&'static str, Json)> {
    let (answer, result) = match counted {
        Counted::Wait => ("wait", names::result_json(u8::MAX, 0)),
        Counted::Fast { result, retry_stamp } => ("fast", names::result_json(result, retry_stamp)),
        Counted::Slow { result, retry_stamp } => ("slow", names::result_json(result, retry_stamp)),
    };
    let mut fields = vec![("answer", Json::text(answer))];
    fields.extend(result);
    fields
}

fn is_ok(counted: Counted) -> bool {
    match counted {
        Counted::Wait => false,
        Counted::Fast { result, .. } | Counted::Slow { result, .. } => result == OK,
    }
}

/// What an OK is worth once it is declared: nobody is told "recorded" on the strength of a count.
fn not_recorded_yet(n: u8) -> String {
    format!(
        "an OK that is declared will be recorded, if the handset lives; it is recorded once {} boxes have accepted its commit in \
         one view, and not before",
        quorum(n)
    )
}

fn replies_of(how_many: usize, n: u8) -> String {
    let replies = if how_many == 1 { "reply" } else { "replies" };
    format!("{} {} of {} boxes", how_many, replies, n)
}

/// What the count says, and what may be done on it.
pub fn in_words(n: u8, how_many: usize, counted: Counted) -> String {
    let said = match counted {
        Counted::Wait => format!(
            "wait: {} are a quorum, and nothing is decided before",
            quorum(n)
        ),
        Counted::Fast {
            result,
            retry_stamp,
        } => format!(
            "fast {}: {} that agree are enough, and it may be declared final at once",
            names::result(result, retry_stamp),
            fast_count(n)
        ),
        Counted::Slow {
            result,
            retry_stamp,
        } => format!(
            "slow {}: it may be sent in message 2, if no other was in this view, and is final once {} confirm it",
            names::result(result, retry_stamp),
            quorum(n)
        ),
    };
    format!("{}: {}", replies_of(how_many, n), said)
}
