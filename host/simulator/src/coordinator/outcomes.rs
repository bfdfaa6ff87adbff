//! What coordinators do about outcomes: messages 3 and 4.

use super::Coordinator;
use crate::group::{Accepted, Declared};
use crate::transactions;
use reference::{Outcome, PrepareResult};
use samples::{message as make, Row};

impl Coordinator {
    /// Commit of what was declared OK, most often; abort of anything else, but not so soon.
    pub(super) fn propose_outcome(&mut self, row: &Row) {
        let ok = |declared: &Declared| declared.result == PrepareResult::Ok;
        let declared: Vec<Declared> = self.play.group.was_declared(row.stamp).copied().collect();
        let commits = if declared.iter().any(ok) { 75 } else { 0 };
        let usual = if self.dice.in_a_hundred(commits) {
            Outcome::Commit
        } else {
            Outcome::Abort
        };
        let any = self.dice.one_of(&[Outcome::Commit, Outcome::Abort]);
        let before = self.play.group.proposed(row.stamp).next();
        let patient = declared.is_empty() && before.is_none() && self.dice.in_a_hundred(95);
        let outcome = match self.tries_its_luck() {
            true => any,
            false if patient => return,
            false => before.unwrap_or(usual),
        };
        let boxes = match outcome {
            Outcome::Abort if !declared.is_empty() => self.some_boxes(),
            _ => self.few_or_many_boxes(),
        };
        self.tell(&boxes, &make::propose_outcome(row, outcome.code()));
    }

    /// Message 4 for what f+1 boxes have accepted, or, with luck, fewer.
    pub(super) fn finalise_outcome(&mut self, stamp: u64) {
        let accepted = self.play.group.accepted.iter();
        let accepted: Vec<Accepted> = accepted.filter(|one| one.stamp == stamp).copied().collect();
        let view = self.dice.below(u64::from(self.view) + 1) as u32;
        let proposed = self.play.group.proposed(stamp).next();
        let (view, outcome) = match (self.tries_its_luck(), proposed, &accepted[..]) {
            (true, Some(outcome), _) => (view, outcome),
            (_, _, []) => return,
            (_, _, some) => {
                let one = self.dice.one_of(some);
                (one.view, one.outcome)
            }
        };
        let boxes = self.few_or_many_boxes();
        self.tell(&boxes, &make::finalise_outcome(stamp, view, outcome.code()));
    }

    /// The outcome is finished, and often a newcomer that clashes with the transaction comes too late.
    pub(super) fn finish(&mut self, row: &Row) {
        self.finalise_outcome(row.stamp);
        if self.dice.in_a_hundred(40) {
            let newcomer = self.newcomer(row);
            self.prepare(&newcomer);
            self.count_and_finalise(&newcomer);
        }
    }

    /// A transaction that was declared is aborted at some boxes, often at none that stays behind, and a newcomer that clashes
    /// with it takes its place there.
    pub(super) fn overturn(&mut self, row: &Row) {
        let before = self.play.group.proposed(row.stamp).next();
        let declared = self.play.group.was_declared(row.stamp).next();
        if declared.is_none() || before == Some(Outcome::Commit) {
            return;
        }
        let mut boxes = self.few_or_many_boxes();
        if self.dice.in_a_hundred(50) {
            boxes.retain(|b| !self.behind.contains(b));
        }
        let abort = make::propose_outcome(row, Outcome::Abort.code());
        self.tell(&boxes, &abort);
        self.finalise_outcome(row.stamp);
        let newcomer = self.newcomer(row);
        let further = self.dice.index(6);
        (0..further).for_each(|_| self.go_on(&newcomer));
    }

    /// A transaction that clashes with another one, best of all one that nobody has heard of but boxes that stay behind.
    pub(super) fn newcomer(&mut self, row: &Row) -> Row {
        let clashing: Vec<&Row> = self
            .rows
            .iter()
            .filter(|other| transactions::clash(row, other))
            .collect();
        let group = &self.play.group;
        let unheard = clashing.iter().filter(|other| {
            let replies = group.replies_for(other.stamp);
            let behind = |place: &usize| self.behind.contains(&group.answers[*place].by);
            replies.iter().all(behind)
        });
        let unheard = unheard.max_by_key(|other| group.replies_for(other.stamp).len());
        match (unheard, clashing.is_empty()) {
            (Some(row), _) => Row::clone(row),
            (None, true) => row.clone(),
            (None, false) => self.dice.one_of(&clashing).clone(),
        }
    }
}
