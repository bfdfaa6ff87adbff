//! The dice that choose the events of a history. They try what the law may forbid, and what it forbids does not happen.

mod behind;
mod carriage;
mod dry;
mod outcomes;
mod prepares;
mod views;

use crate::group::{Counted, Declared};
use crate::law::Law;
use crate::machine::Machine;
use crate::play::Play;
use crate::transactions;
use reference::Decision;
use samples::{Dice, Row};

/// All coordinators of a history, and whatever carries their messages.
struct Coordinator {
    dice: Dice,
    play: Play,
    /// The transactions, how many of them have begun, and the two that most is about for a while.
    rows: Vec<Row>,
    begun: usize,
    rivals: [usize; 2],
    /// How many messages in a hundred go to few boxes, for a while.
    sparse: u64,
    /// Boxes that nothing reaches for a while, at most f.
    away: Vec<usize>,
    /// Boxes that hear nothing of new views for a while, and of everything else: they stay behind in an older one.
    behind: Vec<usize>,
    /// The last view that a change was asked for.
    view: u32,
}

/// A random history of a group, until its end or a violation.
pub fn history(machine: Machine, law: Law, n: u8, seed: u64) -> Play {
    let mut dice = Dice::seeded(seed);
    let rows = match machine.is_small() {
        true => transactions::more_than(&mut dice, machine.model.rows),
        false => transactions::few(&mut dice),
    };
    let mut all = Coordinator {
        begun: 2 + dice.index(3),
        dice,
        play: Play::fresh(machine, law, n),
        rows,
        rivals: [0, 0],
        sparse: 50,
        away: Vec::new(),
        behind: Vec::new(),
        view: 0,
    };
    let seasons = 3 + all.dice.index(4);
    for _ in 0..seasons {
        all.season();
        all.change_view();
    }
    all.season();
    let boxes: Vec<usize> = all.play.group.boxes().collect();
    all.catch_up(&boxes);
    all.play.note_end();
    all.play
}

impl Coordinator {
    /// What happens between two changes of the view.
    fn season(&mut self) {
        self.choose_rivals();
        self.sparse = self.dice.one_of(&[5, 40, 80]);
        let longest = self.dice.one_of(&[6, 12, 24]);
        let steps = 3 + self.dice.index(longest);
        for _ in 0..steps {
            if self.play.violations.is_empty() {
                self.step();
            }
        }
        self.begun = (self.begun + self.dice.index(3)).min(self.rows.len());
    }

    /// Two transactions that clash, if a few throws find such; often they stay the same.
    fn choose_rivals(&mut self) {
        let mut tries = self.dice.one_of(&[0, 0, 1, 4]);
        if self.rivals[0] == self.rivals[1] {
            tries = 6;
        }
        for _ in 0..tries {
            let (one, any) = (self.dice.index(self.begun), self.dice.index(self.begun));
            let other = self.dice.one_of(&[any, self.begun - 1]);
            self.rivals = [one, other];
            if transactions::clash(&self.rows[one], &self.rows[other]) {
                return;
            }
        }
    }

    fn step(&mut self) {
        // The dice of a group of the valley are not asked, so that its histories are those that they were.
        if self.play.group.machine.is_small() && self.dice.in_a_hundred(6) {
            return self.dry_week();
        }
        let row = self.some_row();
        match self.dice.below(100) {
            0..=44 => self.go_on(&row),
            45..=54 => self.prepare(&row),
            55..=58 => self.split(),
            59 => self.leave_behind(),
            60..=66 => self.count_and_finalise(&row),
            67..=70 => self.declare(row.stamp),
            71..=75 => self.propose_outcome(&row),
            76..=79 => self.finalise_outcome(row.stamp),
            80..=82 => self.overturn(&row),
            83..=88 => self.stray(),
            89..=90 => self.late_promise(),
            91..=94 => self.start_view(),
            95 => self.read(&row),
            96..=97 => self.strange_merge(),
            _ => self.go_away(),
        }
    }

    /// Most often one of the two rivals.
    fn some_row(&mut self) -> Row {
        let any = self.dice.index(self.begun);
        let [one, other] = self.rivals;
        let place = self.dice.one_of(&[one, other, one, other, any]);
        self.rows[place].clone()
    }

    /// What a coordinator would do next for a transaction.
    fn go_on(&mut self, row: &Row) {
        let group = &self.play.group;
        let stamp = row.stamp;
        let has_outcome = group.proposed(stamp).next().is_some();
        let is_accepted = group.accepted.iter().any(|one| one.stamp == stamp);
        let is_declared = group.was_declared(stamp).next().is_some();
        let may_declare = self.may_declare(stamp);
        let again = self.dice.in_a_hundred(25);
        match (has_outcome, is_declared, may_declare) {
            _ if again && self.some_box_waits() => self.start_view(),
            (true, ..) if is_accepted && !again => self.finish(row),
            (false, true, _) if again => self.overturn(row),
            (true, ..) | (_, true, _) => self.propose_outcome(row),
            (_, _, true) if !again => self.declare(stamp),
            _ if self.heard_enough(stamp) && !again => self.count_and_finalise(row),
            _ => self.prepare(row),
        }
    }

    /// Whether something that was counted for a stamp may be declared.
    fn may_declare(&self, stamp: u64) -> bool {
        let group = &self.play.group;
        let counted = group.counted.iter().filter(|one| one.stamp == stamp);
        let mut results = counted.filter_map(answer_of);
        results.any(|result| self.play.law.may_declare(group, &result).is_ok())
    }

    /// Now and then something is tried that the law is likely to forbid; more often if it is bent.
    fn tries_its_luck(&mut self) -> bool {
        let times = if self.play.law.is_bent() { 40 } else { 4 };
        self.dice.in_a_hundred(times)
    }
}

/// The result of a count that was fast or slow.
fn answer_of(counted: &Counted) -> Option<Declared> {
    let (stamp, view) = (counted.stamp, counted.view);
    match counted.decision {
        Ok(Decision::Fast(result) | Decision::Slow(result)) => {
            Some(Declared::of(stamp, view, result))
        }
        Ok(Decision::Wait) | Err(_) => None,
    }
}
