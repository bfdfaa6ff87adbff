//! What coordinators do about results: messages 1 and 2, counts and declarations.

use super::{answer_of, Coordinator};
use crate::group::Declared;
use reference::{Decision, PrepareResult};
use samples::{message as make, Row};
use std::collections::BTreeSet;

impl Coordinator {
    pub(super) fn prepare(&mut self, row: &Row) {
        let boxes = self.few_or_many_boxes();
        let other = make::with_other_body(&mut self.dice, row);
        let row = if self.tries_its_luck() { &other } else { row };
        self.tell(&boxes, &make::propose_prepare(row));
    }

    /// The two rivals divide the boxes between them: each box hears of one of them first, or only of one.
    pub(super) fn split(&mut self) {
        let boxes: Vec<usize> = self.play.group.boxes().collect();
        let rivals = self
            .rivals
            .map(|place| make::propose_prepare(&self.rows[place]));
        for to in boxes {
            let first = self.dice.index(2);
            self.tell(&[to], &rivals[first]);
            if self.dice.in_a_hundred(15) {
                self.tell(&[to], &rivals[1 - first]);
            }
        }
    }

    /// Counts replies of one view, and sends message 2 with the answer's result to some boxes.
    pub(super) fn count_and_finalise(&mut self, row: &Row) {
        let stamp = row.stamp;
        let (view, answers) = match self.some_replies(stamp) {
            Some(replies) => replies,
            None => return,
        };
        let counted = self.play.count(stamp, view, &answers);
        let any = self.some_result();
        let result = match counted {
            _ if self.tries_its_luck() => any,
            Ok(Decision::Fast(result) | Decision::Slow(result)) => result,
            Ok(Decision::Wait) | Err(_) => return,
        };
        if let (Ok(Decision::Fast(_)), true) = (counted, self.dice.in_a_hundred(40)) {
            let _ = self.play.declare(Declared::of(stamp, view, result));
        } else {
            let boxes = self.few_or_many_boxes();
            let message =
                make::finalise_prepare(stamp, view, (result.code(), result.retry_stamp()));
            self.tell(&boxes, &message);
        }
    }

    /// One reply each of some boxes, all of one view. A box may have given several in it.
    pub(super) fn some_replies(&mut self, stamp: u64) -> Option<(u32, Vec<usize>)> {
        let group = &self.play.group;
        let mut places = group.replies_for(stamp);
        if places.is_empty() {
            return None;
        }
        let any = self.dice.one_of(&places);
        let last = places[places.len() - 1];
        let view = group.answers[self.dice.one_of(&[any, last, last])]
            .reply
            .view;
        places.retain(|place| group.answers[*place].reply.view == view);
        self.dice.shuffle(&mut places);
        let mut chosen: Vec<usize> = Vec::new();
        for place in places {
            let by = group.answers[place].by;
            if chosen.iter().all(|other| group.answers[*other].by != by) {
                chosen.push(place);
            }
        }
        let any = self.dice.index(chosen.len() + 1);
        let (all, quorum) = (chosen.len(), group.counts.quorum);
        chosen.truncate(self.dice.one_of(&[all, all, all, quorum, quorum, any]));
        Some((view, chosen))
    }

    pub(super) fn some_result(&mut self) -> PrepareResult {
        let retry = PrepareResult::Retry(10 * (1 + self.dice.below(7)));
        self.dice.one_of(&[
            PrepareResult::Ok,
            PrepareResult::Abort,
            PrepareResult::Abstain,
            retry,
        ])
    }

    /// Declares what was counted for a stamp at some time, be it long ago.
    pub(super) fn declare(&mut self, stamp: u64) {
        let counted = self
            .play
            .group
            .counted
            .iter()
            .filter(|counted| counted.stamp == stamp);
        let results: Vec<Declared> = counted.filter_map(answer_of).collect();
        let new = |result: &Declared| !self.play.group.declared.contains(result);
        let mut results: Vec<Declared> = results.into_iter().filter(new).collect();
        self.dice.shuffle(&mut results);
        if let (true, Some(first)) = (self.tries_its_luck(), results.first_mut()) {
            first.result = self.some_result();
        }
        let _ = results
            .into_iter()
            .find(|result| self.play.declare(*result).is_ok());
    }

    /// Whether f+1 boxes that are in the newest of their views have replied in it.
    pub(super) fn heard_enough(&self, stamp: u64) -> bool {
        let group = &self.play.group;
        let in_its_view = |place: &usize| {
            let answered = &group.answers[*place];
            answered.reply.view == group.views_of(answered.by).0
        };
        let replies = group.replies_for(stamp).into_iter().filter(in_its_view);
        let boxes: BTreeSet<usize> = replies.map(|place| group.answers[place].by).collect();
        boxes.len() >= group.counts.quorum
    }
}
