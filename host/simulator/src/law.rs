//! The premises of demand 3: which events are lawful, "each over all that was sent, answered and declared before".

use crate::group::{carried, Accepted, Declared, Group, Merged};
use reference::{Decision, Message, Outcome, PrepareResult, Table};
use std::fmt::{self, Display, Formatter};

/// The seven rules, the fifth in its three parts, and the premise on message 6, which is no rule of the seven.
#[derive(Clone, Copy, Debug, PartialEq, Eq, PartialOrd, Ord)]
pub enum Rule {
    OneBody,
    OneResult,
    OnAnAnswer,
    OnFastOrConfirmed,
    CommitAfterOk,
    CommitToALaterBox,
    NeverBoth,
    OnAcceptances,
    BeforeOutcome,
    TheMerged,
}

impl Display for Rule {
    fn fmt(&self, f: &mut Formatter) -> fmt::Result {
        f.write_str(match self {
            Rule::OneBody => "rule 1: one stamp, one body",
            Rule::OneResult => "rule 2: one result per stamp and view",
            Rule::OnAnAnswer => "rule 3: message 2 only on a fast or slow answer",
            Rule::OnFastOrConfirmed => "rule 4: declared only on the fast count or confirmations",
            Rule::CommitAfterOk => "rule 5: commit only after OK was declared",
            Rule::CommitToALaterBox => "rule 5: commit to no box of an older view",
            Rule::NeverBoth => "rule 5: never both outcomes",
            Rule::OnAcceptances => "rule 6: message 4 only on f+1 acceptances",
            Rule::BeforeOutcome => "rule 7: nothing finalised or declared after an outcome",
            Rule::TheMerged => "message 6 carries the one merge of its view",
        })
    }
}

/// The law of a history: all rules, or all but one that its coordinators do not keep.
#[derive(Clone, Copy, Debug, Default)]
pub struct Law {
    bent: Option<Rule>,
}

impl Law {
    pub fn whole() -> Law {
        Law::default()
    }

    pub fn without(rule: Rule) -> Law {
        Law { bent: Some(rule) }
    }

    pub fn is_bent(&self) -> bool {
        self.bent.is_some()
    }

    /// Whether a message may be sent to a box, or the first rule that forbids it.
    pub fn may_send(&self, group: &Group, to: usize, message: &Message) -> Result<(), Rule> {
        self.first_broken(&sending(group, to, message))
    }

    /// Whether a result may be declared final, or the first rule that forbids it.
    pub fn may_declare(&self, group: &Group, declared: &Declared) -> Result<(), Rule> {
        self.first_broken(&[
            (Rule::OneResult, one_result(group, declared)),
            (
                Rule::OnFastOrConfirmed,
                on_fast_or_confirmed(group, declared),
            ),
            (Rule::BeforeOutcome, before_outcome(group, declared.stamp)),
        ])
    }

    fn first_broken(&self, rules: &[(Rule, bool)]) -> Result<(), Rule> {
        let mut broken = rules
            .iter()
            .filter(|(rule, kept)| !kept && Some(*rule) != self.bent);
        broken.next().map_or(Ok(()), |(rule, _)| Err(*rule))
    }
}

/// What a message is held to, and whether it keeps it.
fn sending(group: &Group, to: usize, message: &Message) -> Vec<(Rule, bool)> {
    match *message {
        Message::ProposePrepare { .. } => vec![(Rule::OneBody, one_body(group, message))],
        Message::FinalisePrepare {
            stamp,
            view,
            result,
        } => finalising(group, &Declared::of(stamp, view, result)),
        Message::ProposeOutcome { stamp, outcome, .. } => {
            let mut rules = vec![(Rule::OneBody, one_body(group, message))];
            rules.extend(proposing(group, to, stamp, outcome));
            rules
        }
        Message::FinaliseOutcome {
            stamp,
            view,
            outcome,
        } => {
            let accepted = group.is_accepted(Accepted::of(stamp, view, outcome));
            vec![(Rule::OnAcceptances, accepted)]
        }
        Message::StartView { view, ref image } => {
            vec![(Rule::TheMerged, the_merged(group, view, image))]
        }
        Message::ChangeView { .. } | Message::Read { .. } => Vec::new(),
    }
}

fn finalising(group: &Group, now: &Declared) -> Vec<(Rule, bool)> {
    vec![
        (Rule::OneResult, one_result(group, now)),
        (Rule::OnAnAnswer, on_an_answer(group, now)),
        (Rule::BeforeOutcome, before_outcome(group, now.stamp)),
    ]
}

fn proposing(group: &Group, to: usize, stamp: u64, outcome: Outcome) -> [(Rule, bool); 3] {
    let later_box = commit_to_a_later_box(group, to, stamp, outcome);
    let never_both = group.proposed(stamp).all(|other| other == outcome);
    [
        (Rule::CommitAfterOk, commit_after_ok(group, stamp, outcome)),
        (Rule::CommitToALaterBox, later_box),
        (Rule::NeverBoth, never_both),
    ]
}

/// "one stamp, one body"
fn one_body(group: &Group, message: &Message) -> bool {
    let now = carried(message);
    let before = group.sent.iter().filter_map(|sent| carried(&sent.message));
    let same_stamp = |other: &(u64, _)| now.map_or(false, |(stamp, _)| stamp == other.0);
    before.filter(same_stamp).all(|other| Some(other) == now)
}

/// "one coordinator per stamp, and one result per stamp and view, sent or declared"
fn one_result(group: &Group, now: &Declared) -> bool {
    let sent = group.sent.iter().filter_map(|sent| match sent.message {
        Message::FinalisePrepare {
            stamp,
            view,
            result,
        } => Some(Declared::of(stamp, view, result)),
        _ => None,
    });
    let same = |other: &Declared| (other.stamp, other.view) == (now.stamp, now.view);
    let mut before = sent.chain(group.declared.iter().copied()).filter(same);
    before.all(|other| other.result == now.result)
}

/// "message 2 is sent only on a fast or slow answer from replies of that view, with that answer's result"
fn on_an_answer(group: &Group, now: &Declared) -> bool {
    let fast_or_slow = [Decision::Fast(now.result), Decision::Slow(now.result)];
    was_counted(group, now, &fast_or_slow)
}

/// Whether replies for the stamp, all of that view, were counted with one of these answers.
fn was_counted(group: &Group, now: &Declared, answers: &[Decision]) -> bool {
    group.counted.iter().any(|counted| {
        let here = (counted.stamp, counted.view) == (now.stamp, now.view);
        here && counted
            .decision
            .map_or(false, |answer| answers.contains(&answer))
    })
}

/// "a result is declared final only on the fast count, or on confirmations (number 0) of message 2 by f+1 different boxes, in
/// one view"
fn on_fast_or_confirmed(group: &Group, now: &Declared) -> bool {
    let fast = was_counted(group, now, &[Decision::Fast(now.result)]);
    fast || confirmations(group, now) >= group.counts.quorum
}

/// How many different boxes have confirmed message 2 with this result in this view.
pub fn confirmations(group: &Group, now: &Declared) -> usize {
    let boxes = group.boxes_in(now.view, |message| match message {
        Message::FinalisePrepare { stamp, result, .. } => {
            (*stamp, *result) == (now.stamp, now.result)
        }
        _ => false,
    });
    boxes.len()
}

/// "commit only after OK was declared final"
fn commit_after_ok(group: &Group, stamp: u64, outcome: Outcome) -> bool {
    outcome == Outcome::Abort || view_of_ok(group, stamp).is_some()
}

/// The first view in which OK was declared for a stamp.
fn view_of_ok(group: &Group, stamp: u64) -> Option<u32> {
    let declared = group.was_declared(stamp);
    let ok = declared.filter(|declared| declared.result == PrepareResult::Ok);
    ok.map(|declared| declared.view).min()
}

/// "and proposed only to a box that has already given an answer numbered 0 in the view of that declaration or a later one".
/// Without a declaration there is no such view, and it is the other half of the rule that speaks.
fn commit_to_a_later_box(group: &Group, to: usize, stamp: u64, outcome: Outcome) -> bool {
    let view = match view_of_ok(group, stamp) {
        Some(view) if outcome == Outcome::Commit => view,
        _ => return true,
    };
    let mut given = group.given();
    given.any(|(_, answered)| answered.by == to && answered.reply.view >= view)
}

/// "after proposing an outcome, nothing more is finalised or declared for that stamp's prepare."
fn before_outcome(group: &Group, stamp: u64) -> bool {
    group.proposed(stamp).next().is_none()
}

/// "message 6 carries a merge for its view, of tables that boxes have had, and for a view one table is sent"
fn the_merged(group: &Group, view: u32, image: &Table) -> bool {
    let is_it = |merged: &Merged| merged.view == view && merged.table == *image;
    let other_sent = group.started(view).map_or(false, |sent| sent != image);
    group.merged.iter().any(is_it) && !other_sent
}
