//! One history, event by event: nothing happens that the law forbids, every event is kept, and after each one demand 3 is
//! judged.

use crate::group::{carried, Accepted, Answered, Counted, Declared, Group, Merged, Promise};
use crate::law::{Law, Rule};
use crate::machine::Machine;
use crate::met::Met;
use crate::room::Room;
use crate::watch::{self, Part, Violation};
use crate::words;
use reference::{Decision, HeldPrepare, Message, PrepareResult, Reply, Rows, Table};

/// What came to pass, by its place in the lists of the group.
pub enum Event {
    Sends(usize),
    Arrives(usize),
    Counts(usize),
    Declares(usize),
    Merges {
        view: u32,
        boxes: Vec<usize>,
        number: u8,
    },
}

pub struct Play {
    pub group: Group,
    pub law: Law,
    pub events: Vec<Event>,
    pub met: Met,
    /// What did not hold of demand 3 or beyond it, the first one first. A history ends with it.
    pub violations: Vec<Violation>,
    /// What boxes said OK to against the day's order, stamps of a RETRY that mislead, and stamps taken or refused against the
    /// rule of room. A history goes on, so that it is seen what becomes of it.
    pub out_of_order: Vec<Violation>,
}

impl Play {
    pub fn fresh(machine: Machine, law: Law, n: u8) -> Play {
        Play {
            group: Group::fresh(machine, n),
            law,
            events: Vec::new(),
            met: Met::default(),
            violations: Vec::new(),
            out_of_order: Vec::new(),
        }
    }

    /// Whether all held that is judged.
    pub fn held(&self) -> bool {
        self.violations.is_empty() && self.out_of_order.is_empty()
    }

    /// What did not hold first, of demand 3 or of the day's order, if it is of this part.
    pub fn first_of(&self, part: Part) -> Option<&Violation> {
        let firsts = [self.violations.first(), self.out_of_order.first()];
        firsts
            .into_iter()
            .flatten()
            .find(|first| first.part == part)
    }

    /// "a message is sent to a box": its place among those sent, or the rule that forbids it.
    pub fn send(&mut self, to: usize, bytes: Vec<u8>) -> Result<usize, Rule> {
        let message = Message::parse_for(self.group.machine.model, &bytes);
        let message = message.expect("a message by the rules");
        if let Err(rule) = self.law.may_send(&self.group, to, &message) {
            self.once(&format!("forbidden by {}", rule));
            return Err(rule);
        }
        let clash = watch::commit(&self.group, &message);
        self.violations.extend(clash);
        self.note_sending(&message);
        let place = self.group.send(to, message, bytes);
        self.events.push(Event::Sends(place));
        Ok(place)
    }

    /// "the message at this place among those sent arrives, at the box that it was sent to"
    pub fn arrive(&mut self, place: usize) -> Answered {
        let to = self.group.sent[place].to;
        let views = self.group.views_of(to);
        let before = self.rows_before_the_check(place);
        let room = self.group.room(to);
        self.note_arrival(place);
        let answered = self.group.answer(place);
        self.events
            .push(Event::Arrives(self.group.answers.len() - 1));
        if let Some(before) = before {
            self.judge_check(&answered, &before);
        }
        self.note_room(&answered, room);
        self.judge_room(&answered, room);
        match self.group.sent[place].message {
            Message::ProposeOutcome { stamp, outcome, .. } if answered.number == 0 => {
                let view = answered.reply.view;
                self.accepts(Accepted::of(stamp, view, outcome));
            }
            Message::ChangeView { view } if answered.number == 0 => self.promises(to, view),
            Message::StartView { view, .. } => {
                self.note_start(&answered, view, views);
                self.violations.extend(watch::start(&answered, view, views));
            }
            _ => {}
        }
        answered
    }

    /// The rows of the box that a message 1 was sent to, if its stamp is none of theirs: then the box checks it, unless it
    /// refuses it.
    fn rows_before_the_check(&self, place: usize) -> Option<Rows> {
        let sent = &self.group.sent[place];
        let rows = |box_number| self.group.table_of(box_number).rows;
        match sent.message {
            Message::ProposePrepare { stamp, .. } => {
                Some(rows(sent.to)).filter(|rows| !rows.contains_key(&stamp))
            }
            _ => None,
        }
    }

    /// What a box said of a transaction that was new to it.
    fn judge_check(&mut self, answered: &Answered, before: &Rows) {
        let message = self.group.sent[answered.place].message.clone();
        let held = held_prepare(&answered.reply);
        if let (0, Some(new), Some(held)) = (answered.number, carried(&message), held) {
            self.note_check(held.result, new, before);
            // The RETRY itself may have taken the last row that there was room for, and the next stamp would be refused.
            let has_room = self.group.has_room(answered.by);
            let wrong = match held.result {
                PrepareResult::Ok => watch::order(answered, new, before),
                PrepareResult::Retry(stamp) if has_room => {
                    let again = self.right_above(answered, stamp);
                    self.note_advice(again);
                    watch::advice(answered, again, new.1, before)
                }
                PrepareResult::Retry(_) | PrepareResult::Abort | PrepareResult::Abstain => None,
            };
            self.out_of_order.extend(wrong);
        }
    }

    /// Whether a box was right to take a new stamp, or to refuse something as full. A view is started with rows of its own.
    fn judge_room(&mut self, answered: &Answered, before: Room) {
        let message = &self.group.sent[answered.place].message;
        let added = self.group.rows_of(answered.by).0 > before.rows;
        let wrong = match (answered.number, message.kind()) {
            (0, 1 | 3) if added => watch::taken(answered, before),
            (7, _) => {
                let held = self.group.table_of(answered.by).rows;
                let is_new = carried(message).map_or(false, |(s, _)| !held.contains_key(&s));
                watch::full(answered, is_new, before)
            }
            _ => None,
        };
        self.out_of_order.extend(wrong);
    }

    /// What a box that said RETRY would say of the same body under the next stamp.
    fn right_above(&self, answered: &Answered, stamp: u64) -> Option<HeldPrepare> {
        let mut bytes = self.group.sent[answered.place].bytes.clone();
        bytes[1..9].copy_from_slice(&(stamp + 1).to_be_bytes());
        let (number, reply) = self.group.would_answer(answered.by, &bytes);
        held_prepare(&reply).filter(|_| number == 0)
    }

    /// The message is sent to a box and arrives there at once.
    pub fn tell(&mut self, to: usize, bytes: Vec<u8>) -> Result<Answered, Rule> {
        let place = self.send(to, bytes)?;
        Ok(self.arrive(place))
    }

    /// The library's count of answers that boxes have given for the prepare of a stamp, all of one view.
    pub fn count(&mut self, stamp: u64, view: u32, answers: &[usize]) -> Result<Decision, u8> {
        let replies = self.group.replies_for(stamp);
        let is_one = |place: &usize| {
            replies.contains(place) && self.group.answers[*place].reply.view == view
        };
        assert!(
            answers.iter().all(is_one),
            "not all replies of view {}",
            view
        );
        let decision = self.group.count(answers);
        self.note_count(decision);
        self.group.counted.push(Counted {
            stamp,
            view,
            answers: answers.to_vec(),
            decision,
        });
        self.events
            .push(Event::Counts(self.group.counted.len() - 1));
        decision
    }

    /// "a result is declared final"
    pub fn declare(&mut self, declared: Declared) -> Result<(), Rule> {
        if let Err(rule) = self.law.may_declare(&self.group, &declared) {
            self.once(&format!("forbidden by {}", rule));
            return Err(rule);
        }
        self.note_declaration(&declared);
        self.violations
            .extend(watch::declaration(&self.group, &declared));
        self.group.declared.push(declared);
        self.events
            .push(Event::Declares(self.group.declared.len() - 1));
        Ok(())
    }

    /// An acceptance of an outcome by one more box.
    fn accepts(&mut self, accepted: Accepted) {
        if self.group.accepted.contains(&accepted) || !self.group.is_accepted(accepted) {
            return;
        }
        self.note_acceptance(&accepted);
        self.violations
            .extend(watch::acceptance(&self.group, &accepted));
        self.group.accepted.push(accepted);
    }

    /// A box has promised a view just now: every f+1 boxes that have, this one among them, are merged.
    fn promises(&mut self, box_number: usize, view: u32) {
        let mut earlier = self.group.promised(view);
        earlier.retain(|other| *other != box_number);
        if !self.group.keep_promise(box_number, view) {
            return;
        }
        for mut boxes in subsets(&earlier, self.group.counts.quorum - 1) {
            let turn = box_number % (boxes.len() + 1);
            boxes.insert(turn, box_number);
            self.note_merge(view, &boxes);
            if let Err(number) = self.merge(view, &boxes) {
                self.violations.extend(watch::refusal(view, &boxes, number));
            }
        }
    }

    /// "the tables at these places among those that boxes have had are merged for a view": those that these boxes had when
    /// they promised it.
    pub fn merge(&mut self, view: u32, boxes: &[usize]) -> Result<(), u8> {
        let tables: Vec<(u32, usize)> = boxes.iter().map(|b| (view, *b)).collect();
        self.merge_tables(view, &tables)
    }

    /// The same of tables that boxes had when they promised these views, of which some may be others.
    pub fn merge_tables(&mut self, view: u32, had: &[(u32, usize)]) -> Result<(), u8> {
        let promises = &self.group.promises;
        let tables: Vec<&Promise> = had.iter().map(|(v, b)| &promises[v][b]).collect();
        let merged = self.group.merge(view, &tables);
        let boxes: Vec<usize> = had.iter().map(|(_, b)| *b).collect();
        self.events.push(Event::Merges {
            view,
            boxes: boxes.clone(),
            number: merged.as_ref().err().copied().unwrap_or(0),
        });
        merged.map(|image| self.judge_merge(view, boxes, image))
    }

    /// A merge that gave an image as another one before it is judged as that one was.
    fn judge_merge(&mut self, view: u32, boxes: Vec<usize>, image: Vec<u8>) {
        self.once("merges judged");
        let mut before = self.group.merged.iter();
        let same = before.position(|merged| merged.view == view && merged.image == image);
        let place = same.unwrap_or(self.group.merged.len());
        if same.is_none() {
            let parsed = Table::parse_for(self.group.machine.model, &image);
            let table = parsed.expect("an image by the rules").0;
            let merged = Merged {
                view,
                boxes: boxes.clone(),
                image,
                table,
            };
            self.note_merged(&merged);
            self.violations.extend(watch::merge(&self.group, &merged));
            self.group.merged.push(merged);
        }
        self.note_checks(place, &boxes);
    }

    /// The history so far, in words.
    pub fn words(&self) -> String {
        words::history(&self.group, &self.events)
    }
}

/// What the reply to message 1 or 2 says that the box holds.
fn held_prepare(reply: &Reply) -> Option<HeldPrepare> {
    HeldPrepare::from_byte(reply.state, reply.value).flatten()
}

/// All subsets of so many of these boxes.
fn subsets(boxes: &[usize], count: usize) -> Vec<Vec<usize>> {
    match (count, boxes.split_first()) {
        (0, _) => vec![Vec::new()],
        (_, None) => Vec::new(),
        (_, Some((first, rest))) => {
            let mut with = subsets(rest, count - 1);
            with.iter_mut().for_each(|subset| subset.insert(0, *first));
            with.extend(subsets(rest, count));
            with
        }
    }
}
