//! A history told step by step. "prepare T at 0 1": message 1 for T is delivered to boxes 0 and 1.

use reference::{Decision, HeldPrepare, Outcome, PrepareResult};
use samples::{message as make, Access, Row};
use simulator::group::{Answered, Declared};
use simulator::law::{Law, Rule};
use simulator::machine::Machine;
use simulator::play::Play;
use simulator::words::prepare_words;

pub const OK: PrepareResult = PrepareResult::Ok;

pub struct Told {
    pub play: Play,
    /// What was seen at the step at which a fault makes a difference.
    pub seen: String,
}

pub const REGISTER_0: Access = Access {
    register: 0,
    number: 0,
};

/// "T, stamp 20, reads register 0 at version 0"
pub fn t() -> Row {
    Row::of(20, vec![REGISTER_0], Vec::new())
}

/// "U, stamp 10, writes register 0", so that the two clash.
pub fn u() -> Row {
    Row::of(10, Vec::new(), vec![REGISTER_0])
}

/// A transaction that clashes with neither.
pub fn apart(stamp: u64) -> Row {
    let register_9 = Access {
        register: 9,
        number: 0,
    };
    Row::of(stamp, Vec::new(), vec![register_9])
}

impl Told {
    pub fn of(machine: Machine, law: Law, n: u8) -> Told {
        let play = Play::fresh(machine, law, n);
        let seen = String::new();
        Told { play, seen }
    }

    fn tell(&mut self, boxes: &[usize], message: &[u8]) -> Result<Vec<Answered>, Rule> {
        let told = boxes.iter().map(|to| self.play.tell(*to, message.to_vec()));
        told.collect()
    }

    /// What each box held for the transaction then, in words.
    pub fn prepare(&mut self, row: &Row, boxes: &[usize]) -> Vec<String> {
        let answers = self
            .tell(boxes, &make::propose_prepare(row))
            .expect("a lawful message");
        let held = |answered: &Answered| {
            HeldPrepare::from_byte(answered.reply.state, answered.reply.value)
        };
        let words = answers.iter().map(|answered| match answered.number {
            0 => prepare_words(held(answered).flatten()),
            refusal => format!("number {}", refusal),
        });
        words.collect()
    }

    /// The count over the last replies of these boxes in the view.
    pub fn count(&mut self, row: &Row, view: u32, boxes: &[usize]) -> Decision {
        let group = &self.play.group;
        let replies = group.replies_for(row.stamp);
        let last = |by: &usize| {
            let theirs = |place: &&usize| {
                let answered = &group.answers[**place];
                answered.by == *by && answered.reply.view == view
            };
            *replies
                .iter()
                .rev()
                .find(theirs)
                .expect("a reply of the box")
        };
        let last: Vec<usize> = boxes.iter().map(last).collect();
        self.play
            .count(row.stamp, view, &last)
            .expect("a count by the rules")
    }

    /// The count's result, whether it is fast or slow.
    pub fn result(&mut self, row: &Row, view: u32, boxes: &[usize]) -> PrepareResult {
        match self.count(row, view, boxes) {
            Decision::Fast(result) | Decision::Slow(result) => result,
            Decision::Wait => panic!("too few replies"),
        }
    }

    pub fn finalise(
        &mut self,
        row: &Row,
        view: u32,
        result: PrepareResult,
        boxes: &[usize],
    ) -> Vec<u8> {
        let message =
            make::finalise_prepare(row.stamp, view, (result.code(), result.retry_stamp()));
        let answers = self.tell(boxes, &message).expect("a lawful message");
        answers.iter().map(|answered| answered.number).collect()
    }

    pub fn declare(&mut self, row: &Row, view: u32, result: PrepareResult) -> Result<(), Rule> {
        let stamp = row.stamp;
        self.play.declare(Declared::of(stamp, view, result))
    }

    /// From the prepare to the declaration, by way of message 2: the result declared.
    pub fn settle(&mut self, row: &Row, view: u32, boxes: &[usize]) -> PrepareResult {
        self.prepare(row, boxes);
        let result = self.result(row, view, boxes);
        self.finalise(row, view, result, boxes);
        self.declare(row, view, result)
            .expect("a lawful declaration");
        result
    }

    pub fn propose(&mut self, row: &Row, outcome: Outcome, boxes: &[usize]) -> Result<(), Rule> {
        self.tell(boxes, &make::propose_outcome(row, outcome.code()))
            .map(drop)
    }

    /// Message 4, with the numbers that the boxes answered.
    pub fn finish(
        &mut self,
        row: &Row,
        view: u32,
        outcome: Outcome,
        boxes: &[usize],
    ) -> Result<Vec<u8>, Rule> {
        let answers = self.tell(
            boxes,
            &make::finalise_outcome(row.stamp, view, outcome.code()),
        )?;
        Ok(answers.iter().map(|answered| answered.number).collect())
    }

    /// Boxes promise a view; every f+1 of them are merged.
    pub fn change(&mut self, view: u32, boxes: &[usize]) {
        self.tell(boxes, &make::change_view(view))
            .expect("a lawful message");
    }

    /// Boxes start a view with the first merge that there was for it.
    pub fn start(&mut self, view: u32, boxes: &[usize]) {
        let mut merged = self.play.group.merged.iter();
        let image = &merged
            .find(|merged| merged.view == view)
            .expect("a merge")
            .image;
        let message = make::start_view(view, image);
        self.tell(boxes, &message).expect("a lawful message");
    }

    pub fn sees(&mut self, what: &str) {
        self.seen = what.to_string();
    }

    /// What the first merge for a view holds for a transaction.
    pub fn sees_merged(&mut self, row: &Row, view: u32) {
        let mut merged = self.play.group.merged.iter();
        let table = &merged
            .find(|merged| merged.view == view)
            .expect("a merge")
            .table;
        self.seen = prepare_words(table.rows.get(&row.stamp).and_then(|row| row.prepare));
    }
}
