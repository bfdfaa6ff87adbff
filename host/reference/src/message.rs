//! "Messages to a box": the seven kinds, taken from bytes and written as bytes.

use crate::body::{Body, GREATEST_REGISTER};
use crate::bytes::Source;
use crate::row::{Outcome, PrepareResult};
use crate::stamps::is_stamp;
use crate::table::Table;
use crate::{Model, VALLEY};

/// A message whose every part is by the rules, but for what only the box's own table can tell of a start image.
#[derive(Clone, Debug, PartialEq, Eq)]
pub enum Message {
    ProposePrepare {
        stamp: u64,
        body: Body,
    },
    FinalisePrepare {
        stamp: u64,
        view: u32,
        result: PrepareResult,
    },
    ProposeOutcome {
        stamp: u64,
        outcome: Outcome,
        body: Body,
    },
    FinaliseOutcome {
        stamp: u64,
        view: u32,
        outcome: Outcome,
    },
    ChangeView {
        view: u32,
    },
    StartView {
        view: u32,
        image: Table,
    },
    Read {
        stamp: u64,
        register: u8,
    },
}

impl Message {
    /// The message that the bytes are, unless "kind, length, stamp, body, register or code breaks a rule".
    pub fn parse(bytes: &[u8]) -> Option<Message> {
        Message::parse_for(VALLEY, bytes)
    }

    pub fn parse_for(model: Model, bytes: &[u8]) -> Option<Message> {
        let mut source = Source::new(bytes);
        let kind = source.one()?;
        let message = match kind {
            1 => propose_prepare(&mut source),
            2 => finalise_prepare(&mut source),
            3 => propose_outcome(&mut source),
            4 => finalise_outcome(&mut source),
            5 => change_view(&mut source),
            6 => return start_view(model, &mut source),
            7 => read(&mut source),
            _ => None,
        };
        // A byte too many breaks the rule of the length.
        message.filter(|_| source.rest().is_empty())
    }

    pub fn kind(&self) -> u8 {
        match self {
            Message::ProposePrepare { .. } => 1,
            Message::FinalisePrepare { .. } => 2,
            Message::ProposeOutcome { .. } => 3,
            Message::FinaliseOutcome { .. } => 4,
            Message::ChangeView { .. } => 5,
            Message::StartView { .. } => 6,
            Message::Read { .. } => 7,
        }
    }

    pub fn bytes(&self) -> Vec<u8> {
        let mut bytes = vec![self.kind()];
        match self {
            Message::ProposePrepare { stamp, .. }
            | Message::FinalisePrepare { stamp, .. }
            | Message::ProposeOutcome { stamp, .. }
            | Message::FinaliseOutcome { stamp, .. }
            | Message::Read { stamp, .. } => bytes.extend(stamp.to_be_bytes()),
            Message::ChangeView { view } | Message::StartView { view, .. } => {
                bytes.extend(view.to_be_bytes())
            }
        }
        bytes.extend(self.bytes_after_the_first_number());
        bytes
    }

    fn bytes_after_the_first_number(&self) -> Vec<u8> {
        match self {
            Message::ProposePrepare { body, .. } => [body.counts().to_vec(), body.bytes()].concat(),
            Message::FinalisePrepare { view, result, .. } => [
                view.to_be_bytes().to_vec(),
                vec![result.code()],
                result.retry_stamp().to_be_bytes().to_vec(),
            ]
            .concat(),
            Message::ProposeOutcome { outcome, body, .. } => {
                [vec![outcome.code()], body.counts().to_vec(), body.bytes()].concat()
            }
            Message::FinaliseOutcome { view, outcome, .. } => {
                [view.to_be_bytes().to_vec(), vec![outcome.code()]].concat()
            }
            Message::ChangeView { .. } => Vec::new(),
            Message::StartView { image, .. } => image.image(),
            Message::Read { register, .. } => vec![*register],
        }
    }
}

/// "Kinds, codes, counts and registers take 1 byte, stamps 8."
fn take_stamp(source: &mut Source) -> Option<u64> {
    source.eight().filter(|stamp| is_stamp(*stamp))
}

/// Two counts and a body, as they end messages 1 and 3.
fn take_body(source: &mut Source, stamp: u64) -> Option<Body> {
    let counts = (source.one()?, source.one()?);
    Body::take(source, counts, stamp)
}

/// "1 propose prepare: kind, stamp, two counts, body."
fn propose_prepare(source: &mut Source) -> Option<Message> {
    let stamp = take_stamp(source)?;
    let body = take_body(source, stamp)?;
    Some(Message::ProposePrepare { stamp, body })
}

/// "2 finalise prepare: kind, stamp, view 4, result 1 to 4, retry stamp (by the rows' rule)."
fn finalise_prepare(source: &mut Source) -> Option<Message> {
    let stamp = take_stamp(source)?;
    let view = source.four()?;
    let result = PrepareResult::from_code(source.one()?, source.eight()?)?;
    Some(Message::FinalisePrepare {
        stamp,
        view,
        result,
    })
}

/// "3 propose outcome: kind, stamp, 1 commit or 2 abort, counts, body."
fn propose_outcome(source: &mut Source) -> Option<Message> {
    let stamp = take_stamp(source)?;
    let outcome = Outcome::from_code(source.one()?)?;
    let body = take_body(source, stamp)?;
    Some(Message::ProposeOutcome {
        stamp,
        outcome,
        body,
    })
}

/// "4 finalise outcome: kind, stamp, view 4, 1 or 2."
fn finalise_outcome(source: &mut Source) -> Option<Message> {
    let stamp = take_stamp(source)?;
    let view = source.four()?;
    let outcome = Outcome::from_code(source.one()?)?;
    Some(Message::FinaliseOutcome {
        stamp,
        view,
        outcome,
    })
}

/// "5 change view: kind, v 4."
fn change_view(source: &mut Source) -> Option<Message> {
    let view = source.four()?;
    Some(Message::ChangeView { view })
}

/// "6 start view: kind, v 4, image." The image ends the message.
fn start_view(model: Model, source: &mut Source) -> Option<Message> {
    let view = source.four()?;
    let (image, length) = Table::parse_for(model, source.rest())?;
    (length == source.rest().len()).then_some(Message::StartView { view, image })
}

/// "7 read: kind, stamp, register."
fn read(source: &mut Source) -> Option<Message> {
    let stamp = take_stamp(source)?;
    let register = source.one()?;
    (register <= GREATEST_REGISTER).then_some(Message::Read { stamp, register })
}
