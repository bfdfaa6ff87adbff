//! The seven messages: the fields of one that the library takes for a message, and one laid as bytes from its fields.

use crate::image::{number_at, u32_at, Body, Header, Table};
use crate::json::Json;
use crate::{names, stamps};

/// What a message says. A field need not be by the rules: the library judges the bytes.
#[derive(Clone, Debug, PartialEq, Eq)]
#[rustfmt::skip]
pub enum Message {
    ProposePrepare { stamp: u64, body: Body },
    FinalisePrepare { stamp: u64, view: u32, result: u8, retry_stamp: u64 },
    ProposeOutcome { stamp: u64, verdict: u8, body: Body },
    FinaliseOutcome { stamp: u64, view: u32, verdict: u8 },
    ChangeView { view: u32 },
    StartView { view: u32, image: Vec<u8> },
    Read { stamp: u64, register: u8 },
}

/// Where the image stands in message 6: behind the kind and the view.
pub const IMAGE_PLACE: usize = 5;

/// One part of a message behind its kind. The parts of a message stand in its bytes, in its words and in its JSON in one order.
enum Part<'a> {
    Stamp(u64),
    /// The view that an answer or an acceptance was given in.
    InView(u32),
    /// The view that is changed to, or started.
    View(u32),
    Result(u8, u64),
    Verdict(u8),
    Body(&'a Body),
    Image(&'a [u8]),
    Register(u8),
}

impl Message {
    /// The message that the bytes are, which the library has found good.
    pub fn of(bytes: &[u8]) -> Message {
        let view = || u32_at(bytes, 1);
        match bytes[0] {
            5 => Message::ChangeView { view: view() },
            6 => Message::StartView {
                view: view(),
                image: bytes[IMAGE_PLACE..].to_vec(),
            },
            _ => Message::stamped(bytes, number_at(bytes, 1, 8)),
        }
    }

    /// The messages that begin with a stamp.
    fn stamped(bytes: &[u8], stamp: u64) -> Message {
        match bytes[0] {
            1 => Message::ProposePrepare {
                stamp,
                body: Body::at(bytes, 11, bytes[9], bytes[10]),
            },
            2 => Message::FinalisePrepare {
                stamp,
                view: u32_at(bytes, 9),
                result: bytes[13],
                retry_stamp: number_at(bytes, 14, 8),
            },
            3 => Message::ProposeOutcome {
                stamp,
                verdict: bytes[9],
                body: Body::at(bytes, 12, bytes[10], bytes[11]),
            },
            4 => Message::FinaliseOutcome {
                stamp,
                view: u32_at(bytes, 9),
                verdict: bytes[13],
            },
            _ => Message::Read {
                stamp,
                register: bytes[9],
            },
        }
    }

    pub fn kind(&self) -> u8 {
        match self {
            Message::ProposePrepare { .. } => 1,
            Message::FinalisePrepare { .. } => 2,
            Message::ProposeOutcome { .. } => 3,
            Message::FinaliseOutcome { .. } => 4,
            Message::ChangeView { .. } => 5,
            Message::StartView { .. } => 6,
            Message::Read { .. } => 7,
        }
    }

    /// The stamp of the transaction that it is about, if it is about one.
    pub fn stamp(&self) -> Option<u64> {
        match self {
            Message::ProposePrepare { stamp, .. }
            | Message::FinalisePrepare { stamp, .. }
            | Message::ProposeOutcome { stamp, .. }
            | Message::FinaliseOutcome { stamp, .. } => Some(*stamp),
            _ => None,
        }
    }

    /// "Messages to a box": what stands in each, in its order.
    #[rustfmt::skip]
    fn parts(&self) -> Vec<Part<'_>> {
        use Part::{Image, InView, Register, Result, Stamp, Verdict, View};
        match self {
            Message::ProposePrepare { stamp, body } => vec![Stamp(*stamp), Part::Body(body)],
            Message::FinalisePrepare { stamp, view, result, retry_stamp } => {
                vec![Stamp(*stamp), InView(*view), Result(*result, *retry_stamp)]
            }
            Message::ProposeOutcome { stamp, verdict, body } => {
                vec![Stamp(*stamp), Verdict(*verdict), Part::Body(body)]
            }
            Message::FinaliseOutcome { stamp, view, verdict } => {
                vec![Stamp(*stamp), InView(*view), Verdict(*verdict)]
            }
            Message::ChangeView { view } => vec![View(*view)],
            Message::StartView { view, image } => vec![View(*view), Image(image)],
            Message::Read { stamp, register } => vec![Stamp(*stamp), Register(*register)],
        }
    }

    /// "Kinds, codes, counts and registers take 1 byte, stamps 8."
    pub fn bytes(&self) -> Vec<u8> {
        let parts = self.parts();
        let behind = parts.iter().flat_map(Part::bytes);
        std::iter::once(self.kind()).chain(behind).collect()
    }

    /// The message in the words from which `message` writes it, but for the image, of which the words say what it is.
    pub fn words(&self) -> String {
        let name = names::kind_word(self.kind());
        let parts = self.parts();
        let behind = parts.iter().map(Part::words);
        let words: Vec<String> = std::iter::once(name).chain(behind).collect();
        words.join(" ")
    }

    pub fn json(&self) -> Json {
        let mut fields = vec![
            ("kind", Json::from(self.kind())),
            ("message", Json::text(names::kind_word(self.kind()))),
        ];
        fields.extend(self.parts().iter().flat_map(Part::json));
        Json::Object(fields)
    }
}

impl Part<'_> {
    fn bytes(&self) -> Vec<u8> {
        match self {
            Part::Stamp(stamp) => stamp.to_be_bytes().to_vec(),
            Part::InView(view) | Part::View(view) => view.to_be_bytes().to_vec(),
            Part::Result(code, retry_stamp) => {
                let retry_stamp = retry_stamp.to_be_bytes();
                std::iter::once(*code).chain(retry_stamp).collect()
            }
            Part::Verdict(code) | Part::Register(code) => vec![*code],
            Part::Body(body) => body_with_counts(body),
            Part::Image(image) => image.to_vec(),
        }
    }

    fn words(&self) -> String {
        match self {
            Part::Stamp(stamp) => stamps::short(*stamp),
            Part::InView(view) => format!("view {}", view),
            Part::View(view) => view.to_string(),
            Part::Result(code, retry_stamp) => names::result(*code, *retry_stamp),
            Part::Verdict(code) => names::verdict(*code).to_string(),
            Part::Body(body) => body.words(),
            Part::Image(image) => image_in_words(image),
            Part::Register(register) => format!("register {}", register),
        }
    }

    fn json(&self) -> Vec<(&'static str, Json)> {
        match self {
            Part::Stamp(stamp) => stamps::json(stamps::STAMP, Some(*stamp)),
            Part::InView(view) | Part::View(view) => vec![("view", Json::from(*view))],
            Part::Result(code, retry_stamp) => names::result_json(*code, *retry_stamp),
            Part::Verdict(code) => vec![("outcome", Json::text(names::verdict(*code)))],
            Part::Body(body) => body.json(),
            Part::Image(image) => vec![("table", Table::of(image).json())],
            Part::Register(register) => vec![("register", Json::from(*register))],
        }
    }
}

/// Two counts and a body, as they end messages 1 and 3. There are no more accesses than a count can say: whoever takes them from
/// words sees to that.
fn body_with_counts(body: &Body) -> Vec<u8> {
    let mut bytes = vec![body.reads.len() as u8, body.writes.len() as u8];
    for access in body.reads.iter().chain(&body.writes) {
        bytes.push(access.register);
        bytes.extend(access.number.to_be_bytes());
    }
    bytes
}

fn image_in_words(image: &[u8]) -> String {
    let header = Header::at(image);
    let rows = names::how_many(header.rows as usize, "row");
    format!("with the image of {}, {} bytes", rows, header.length)
}
