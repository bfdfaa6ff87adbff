//! A group: "the boxes' tables now, and all that has come to pass, each list in the order of time".

use crate::machine::{decoded, Machine};
use reference::bytes::Source;
use reference::{Body, Counts, Decision, Message, Mode, Outcome, PrepareResult, Reply, Table};
use samples::Record;
use std::collections::{BTreeMap, BTreeSet};

/// A message that was sent to a box, and how often it has arrived there.
pub struct Sent {
    pub to: usize,
    pub message: Message,
    pub bytes: Vec<u8>,
    pub arrived: u32,
}

/// What a box answered to the message at a place among those sent. The reply is that of number 0; of a refusal it is empty.
#[derive(Clone, Copy)]
pub struct Answered {
    pub place: usize,
    pub by: usize,
    pub number: u8,
    pub reply: Reply,
}

/// What the library's count made of the answers at these places, which were all given for this stamp in this view.
pub struct Counted {
    pub stamp: u64,
    pub view: u32,
    pub answers: Vec<usize>,
    pub decision: Result<Decision, u8>,
}

#[derive(Clone, Copy, Debug, PartialEq, Eq)]
pub struct Declared {
    pub stamp: u64,
    pub view: u32,
    pub result: PrepareResult,
}

impl Declared {
    pub fn of(stamp: u64, view: u32, result: PrepareResult) -> Declared {
        Declared {
            stamp,
            view,
            result,
        }
    }
}

/// An outcome that f+1 different boxes have accepted in one view.
#[derive(Clone, Copy, Debug, PartialEq, Eq)]
pub struct Accepted {
    pub stamp: u64,
    pub view: u32,
    pub outcome: Outcome,
}

impl Accepted {
    pub fn of(stamp: u64, view: u32, outcome: Outcome) -> Accepted {
        Accepted {
            stamp,
            view,
            outcome,
        }
    }
}

/// A merge that was not refused: of which boxes' tables, and what it holds.
pub struct Merged {
    pub view: u32,
    pub boxes: Vec<usize>,
    pub image: Vec<u8>,
    pub table: Table,
}

/// The table that a box had while it was changing and had promised a view. It has no other one for that view, for
/// "messages 1 to 4 and 7 while mode is 1" are refused.
pub struct Promise {
    pub image: Vec<u8>,
    pub table: Table,
}

pub struct Group {
    pub machine: Machine,
    pub n: u8,
    pub counts: Counts,
    tables: Vec<Vec<u8>>,
    pub sent: Vec<Sent>,
    pub answers: Vec<Answered>,
    pub counted: Vec<Counted>,
    pub declared: Vec<Declared>,
    pub accepted: Vec<Accepted>,
    /// Merges that gave the same image for the same view stand here once, as the first of them.
    pub merged: Vec<Merged>,
    /// For each view, the boxes that have ever promised it.
    pub promises: BTreeMap<u32, BTreeMap<usize, Promise>>,
}

impl Group {
    /// "the fresh start: each box has its fresh table, and nothing was sent"
    pub fn fresh(machine: Machine, n: u8) -> Group {
        let fresh = |box_number| {
            let mut table = vec![0xee; machine.model.buffer];
            let number = (machine.fresh)(machine.model, &mut table, n, box_number);
            assert_eq!(number, 0);
            table
        };
        Group {
            machine,
            n,
            counts: Counts::from_n(n).expect("a group of 3, 5 or 7 boxes"),
            tables: (0..n).map(fresh).collect(),
            sent: Vec::new(),
            answers: Vec::new(),
            counted: Vec::new(),
            declared: Vec::new(),
            accepted: Vec::new(),
            merged: Vec::new(),
            promises: BTreeMap::new(),
        }
    }

    pub fn boxes(&self) -> std::ops::Range<usize> {
        0..self.tables.len()
    }

    /// The last normal view of a box and the view that it promised, as its header has them.
    pub fn views_of(&self, box_number: usize) -> (u32, u32) {
        let table = &self.tables[box_number];
        (number_at(table, 8), number_at(table, 12))
    }

    /// The rows that a box holds, and those that it held when its view began, as its header has them.
    pub fn rows_of(&self, box_number: usize) -> (u32, u32) {
        let table = &self.tables[box_number];
        (number_at(table, 4), number_at(table, 16))
    }

    /// The table of a box.
    pub fn table_of(&self, box_number: usize) -> Table {
        self.parsed(box_number).0
    }

    /// The table of a box, and the length of its image.
    fn parsed(&self, box_number: usize) -> (Table, usize) {
        let parsed = Table::parse_for(self.machine.model, &self.tables[box_number]);
        parsed.expect("a table by the rules")
    }

    /// "Changing: promised > view."
    pub fn is_changing(&self, box_number: usize) -> bool {
        let (view, promised) = self.views_of(box_number);
        promised > view
    }

    /// A message is sent to a box: its place among those sent.
    pub fn send(&mut self, to: usize, message: Message, bytes: Vec<u8>) -> usize {
        self.sent.push(Sent {
            to,
            message,
            bytes,
            arrived: 0,
        });
        self.sent.len() - 1
    }

    /// The message at a place arrives: the box answers, and the answer stands last among the answers.
    pub fn answer(&mut self, place: usize) -> Answered {
        let sent = &mut self.sent[place];
        sent.arrived += 1;
        let mut reply = [0; 24];
        let table = &mut self.tables[sent.to];
        let number = (self.machine.answer)(self.machine.model, table, &sent.bytes, &mut reply);
        let answered = Answered {
            place,
            by: sent.to,
            number,
            reply: read_reply(&reply).expect("24 bytes"),
        };
        self.answers.push(answered);
        answered
    }

    /// What a box would answer to a message that does not come to it: the number, and the reply.
    pub fn would_answer(&self, box_number: usize, bytes: &[u8]) -> (u8, Reply) {
        let mut table = self.tables[box_number].clone();
        let mut reply = [0; 24];
        let number = (self.machine.answer)(self.machine.model, &mut table, bytes, &mut reply);
        (number, read_reply(&reply).expect("24 bytes"))
    }

    /// Keeps the table that a box has while it promises a view.
    pub fn keep_promise(&mut self, box_number: usize, view: u32) -> bool {
        let (table, length) = self.parsed(box_number);
        let promises = table.mode == Mode::Changing { promised: view };
        if promises {
            let image = self.tables[box_number][..length].to_vec();
            let of_the_view = self.promises.entry(view).or_default();
            of_the_view.insert(box_number, Promise { image, table });
        }
        promises
    }

    /// The boxes that have ever promised a view.
    pub fn promised(&self, view: u32) -> Vec<usize> {
        let promises = self.promises.get(&view);
        promises.map_or(Vec::new(), |of| of.keys().copied().collect())
    }

    /// The answer that a box gave, numbered 0.
    pub fn given(&self) -> impl Iterator<Item = (&Message, &Answered)> {
        let done = self.answers.iter().filter(|answered| answered.number == 0);
        done.map(|answered| (&self.sent[answered.place].message, answered))
    }

    /// The different boxes whose answers, numbered 0 and of this view, are such.
    pub fn boxes_in(&self, view: u32, such: impl Fn(&Message) -> bool) -> BTreeSet<usize> {
        let given = self.given().filter(|(_, by)| by.reply.view == view);
        let such = given.filter(|(message, _)| such(message));
        such.map(|(_, answered)| answered.by).collect()
    }

    /// "f+1 different boxes have accepted message 3 (number 0) with that outcome", in a view.
    pub fn is_accepted(&self, outcome: Accepted) -> bool {
        let boxes = self.boxes_in(outcome.view, |message| proposes(message, &outcome));
        boxes.len() >= self.counts.quorum
    }

    /// The places of answers, numbered 0, for the prepare of a stamp: messages 1 and 2.
    pub fn replies_for(&self, stamp: u64) -> Vec<usize> {
        let is_for = |answered: &Answered| {
            answered.number == 0 && asks_prepare(&self.sent[answered.place].message, stamp)
        };
        let places = 0..self.answers.len();
        places
            .filter(|place| is_for(&self.answers[*place]))
            .collect()
    }

    /// What the count says of the answers at these places.
    pub fn count(&self, answers: &[usize]) -> Result<Decision, u8> {
        let records: Vec<Record> = answers
            .iter()
            .map(|place| record(&self.answers[*place]))
            .collect();
        decoded((self.machine.count)(self.n, &records))
    }

    /// The merge for a view of tables that these boxes had: the image, or the number that refuses them.
    pub fn merge(&self, view: u32, promises: &[&Promise]) -> Result<Vec<u8>, u8> {
        let images: Vec<&[u8]> = promises.iter().map(|had| &had.image[..]).collect();
        let model = self.machine.model;
        let mut out = vec![0; model.buffer];
        match (self.machine.merge)(model, &images.concat(), view, &mut out) {
            0 => {
                out.truncate(number_at(&out, 20) as usize);
                Ok(out)
            }
            refusal => Err(refusal),
        }
    }

    pub fn was_declared(&self, stamp: u64) -> impl Iterator<Item = &Declared> {
        let all = self.declared.iter();
        all.filter(move |declared| declared.stamp == stamp)
    }

    /// The outcomes proposed for a stamp so far.
    pub fn proposed(&self, stamp: u64) -> impl Iterator<Item = Outcome> + '_ {
        self.sent.iter().filter_map(move |sent| match sent.message {
            Message::ProposeOutcome {
                stamp: s, outcome, ..
            } if s == stamp => Some(outcome),
            _ => None,
        })
    }

    /// The merged table that was sent for a view.
    pub fn started(&self, view: u32) -> Option<&Table> {
        self.sent.iter().find_map(|sent| match &sent.message {
            Message::StartView { view: v, image } if *v == view => Some(image),
            _ => None,
        })
    }
}

/// "a message has this stamp and body": messages 1 and 3.
pub fn carried(message: &Message) -> Option<(u64, &Body)> {
    match message {
        Message::ProposePrepare { stamp, body } | Message::ProposeOutcome { stamp, body, .. } => {
            Some((*stamp, body))
        }
        _ => None,
    }
}

/// "a message asks for the prepare of this stamp": messages 1 and 2.
fn asks_prepare(message: &Message, of: u64) -> bool {
    match message {
        Message::ProposePrepare { stamp, .. } | Message::FinalisePrepare { stamp, .. } => {
            *stamp == of
        }
        _ => false,
    }
}

fn proposes(message: &Message, accepted: &Accepted) -> bool {
    match message {
        Message::ProposeOutcome { stamp, outcome, .. } => {
            (*stamp, *outcome) == (accepted.stamp, accepted.outcome)
        }
        _ => false,
    }
}

/// "Reply, 24 bytes: number 0, kind, box, state byte [..], last normal view after the call 4, stamp 8, value 8."
fn read_reply(bytes: &[u8]) -> Option<Reply> {
    let mut source = Source::new(bytes);
    let _number = source.one()?;
    Some(Reply {
        kind: source.one()?,
        box_number: source.one()?,
        state: source.one()?,
        view: source.four()?,
        stamp: source.eight()?,
        value: source.eight()?,
    })
}

/// "box, view, result with its retry stamp, final or not", from a reply to message 1 or 2.
fn record(answered: &Answered) -> Record {
    let is_final = answered.reply.state > 4;
    let code = answered.reply.state - if is_final { 4 } else { 0 };
    Record {
        box_number: answered.by as u8,
        view: answered.reply.view,
        result: (code, answered.reply.value),
        is_final: u8::from(is_final),
    }
}

fn number_at(bytes: &[u8], at: usize) -> u32 {
    let mut source = Source::starting_at(bytes, at).expect("a header");
    source.four().expect("four bytes")
}
