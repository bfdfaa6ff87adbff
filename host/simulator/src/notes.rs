//! What a play counts of its events, before they change the group.

use crate::group::{Accepted, Answered, Declared, Merged, Promise};
use crate::law::confirmations;
use crate::newly::by_days_order;
use crate::play::Play;
use crate::room::Room;
use crate::words::outcome_name;
use reference::{
    Body, Decision, HeldOutcome, HeldPrepare, Message, Outcome, PrepareResult, Row, Rows,
};

impl Play {
    pub(crate) fn once(&mut self, what: &str) {
        self.met.once(what, self.group.n);
    }

    fn once_if(&mut self, met: bool, what: &str) {
        if met {
            self.once(what);
        }
    }

    pub(crate) fn note_sending(&mut self, message: &Message) {
        let (stamp, outcome) = match message {
            Message::ProposeOutcome { stamp, outcome, .. } => (*stamp, *outcome),
            _ => return,
        };
        let newest = self.group.merged.iter().map(|merged| merged.view).max();
        let declared: Vec<Declared> = self.group.was_declared(stamp).copied().collect();
        let ok = declared
            .iter()
            .find(|declared| declared.result == PrepareResult::Ok);
        let later = ok.map_or(false, |declared| newest > Some(declared.view));
        let aborts = outcome == Outcome::Abort;
        self.once_if(aborts && ok.is_some(), "abort proposed of a declared OK");
        self.once_if(
            !aborts && later,
            "commit proposed after a merge of a later view",
        );
    }

    pub(crate) fn note_arrival(&mut self, place: usize) {
        let sent = &self.group.sent[place];
        let to = sent.to;
        let repeated = sent.arrived > 0;
        let mut later = self.group.sent[place + 1..].iter();
        let reordered = !repeated && later.any(|other| other.to == to && other.arrived > 0);
        self.once_if(repeated, "deliveries repeated");
        self.once_if(reordered, "deliveries behind a later message");
    }

    /// A transaction that was new to a box, as the box has checked it against the rows that it held.
    pub(crate) fn note_check(&mut self, result: PrepareResult, new: (u64, &Body), before: &Rows) {
        let latest = before.get(&result.retry_stamp());
        let reads = |row: &Row| new.1.writes.keys().any(|k| row.body.reads.contains_key(k));
        let is_reader = latest.map_or(false, |row| row.is_prepared() && reads(row));
        self.once_if(is_reader, "RETRY with a prepared reader's stamp");
        if let Some(what) = by_days_order(result, new, before) {
            self.once(what);
        }
    }

    /// What a box that said RETRY would say right above the stamp that it gave.
    pub(crate) fn note_advice(&mut self, again: Option<HeldPrepare>) {
        match again.map(|held| held.result) {
            Some(PrepareResult::Ok) => self.once("RETRY with OK right above its stamp"),
            Some(PrepareResult::Abstain) => self.once("RETRY with ABSTAIN right above its stamp"),
            _ => {}
        }
    }

    /// What was answered by a box that had this room. "A group with no room left still reads, finalises and changes view."
    pub(crate) fn note_room(&mut self, answered: &Answered, before: Room) {
        let kind = self.group.sent[answered.place].message.kind();
        match (answered.number, kind) {
            (7, _) => self.once("new stamps refused for want of room"),
            (0, 2 | 4) if !before.in_box => {
                self.once("results and outcomes finalised with no room left")
            }
            (0, 7) if !before.in_box => self.once("reads with no room left"),
            (0, 6) => {
                let again = !before.in_box && self.group.has_room(answered.by);
                self.once_if(again, "views started that made room again");
                let none = !before.in_group;
                self.once_if(none, "views started by a group with no room left");
            }
            _ => {}
        }
    }

    pub(crate) fn note_start(
        &mut self,
        answered: &Answered,
        view: u32,
        (last, promised): (u32, u32),
    ) {
        let taken = answered.number == 0;
        self.once_if(taken, "views started");
        self.once_if(
            taken && promised < view,
            "views started by a box that had not promised them",
        );
        self.once_if(
            taken && last + 1 < view,
            "views started by a box that missed some before",
        );
    }

    pub(crate) fn note_count(&mut self, decision: Result<Decision, u8>) {
        self.once(match decision {
            Ok(Decision::Wait) => "counts that wait",
            Ok(Decision::Fast(_)) => "counts that are fast",
            Ok(Decision::Slow(_)) => "counts that are slow",
            Err(_) => "counts refused",
        });
    }

    pub(crate) fn note_declaration(&mut self, declared: &Declared) {
        let confirmed = confirmations(&self.group, declared) >= self.group.counts.quorum;
        let how = if confirmed { "confirmed" } else { "fast" };
        let result = match declared.result {
            PrepareResult::Ok => "OK",
            PrepareResult::Abort => "ABORT",
            PrepareResult::Abstain => "ABSTAIN",
            PrepareResult::Retry(_) => "RETRY",
        };
        self.once(&format!("declared {} {}", how, result));
        let mut merged = self.group.merged.iter();
        let late = merged.any(|merged| merged.view > declared.view);
        self.once_if(late, "declared after a merge of a later view");
    }

    pub(crate) fn note_acceptance(&mut self, accepted: &Accepted) {
        self.once(&format!(
            "accepted by f+1: {}",
            outcome_name(accepted.outcome)
        ));
        let mut merged = self.group.merged.iter();
        let late = merged.any(|merged| merged.view > accepted.view);
        self.once_if(late, "accepted by f+1 after a merge of a later view");
    }

    /// What f+1 boxes bring into a merge.
    pub(crate) fn note_merge(&mut self, view: u32, boxes: &[usize]) {
        let promises = &self.group.promises[&view];
        let tables: Vec<&Promise> = boxes.iter().map(|b| &promises[b]).collect();
        let newest = tables.iter().map(|had| had.table.view).max();
        let used: Vec<&Promise> = tables
            .iter()
            .copied()
            .filter(|had| Some(had.table.view) == newest)
            .collect();
        let (agreed, open) = ways_settled(&used, self.group.counts.agreement);
        let older = used.len() < tables.len();
        let late = self.group.started(view).is_some();
        self.once_if(agreed, "merges that settle an agreed row");
        self.once_if(open, "merges that settle an open row");
        self.once_if(older, "merges with a table of an older view");
        self.once_if(late, "merges after their view was started");
    }

    /// The image at this place among those merged, as it came of these boxes' tables. A row was checked if none of the
    /// tables brought its result.
    pub(crate) fn note_checks(&mut self, place: usize, boxes: &[usize]) {
        let merged = &self.group.merged[place];
        let promises = self.group.promises.get(&merged.view);
        let had = |b: &usize| promises.and_then(|of| of.get(b));
        let is_checked = |stamp: &u64, row: &Row| {
            let held = boxes.iter().filter_map(had);
            let mut rows = held.filter_map(|had| had.table.rows.get(stamp));
            rows.all(|held| held.retry_stamp() != row.retry_stamp())
        };
        let all = &merged.table.rows;
        let is_prepared = |stamp| all.get(&stamp).map_or(false, Row::is_prepared);
        let mut rows = all.iter();
        let met = rows.any(|(stamp, row)| is_prepared(row.retry_stamp()) && is_checked(stamp, row));
        self.once_if(met, "merges that check to RETRY of a prepared reader");
    }

    pub(crate) fn note_merged(&mut self, merged: &Merged) {
        let rows: Vec<Row> = merged.table.rows.values().cloned().collect();
        let holds = |result: fn(PrepareResult) -> bool| {
            rows.iter()
                .any(|row| row.prepare.map_or(false, |held| result(held.result)))
        };
        let done = |outcome| {
            rows.iter()
                .any(|row| row.outcome == Some(HeldOutcome::done(outcome)))
        };
        let is_full = rows.len() == self.group.machine.model.rows;
        self.once("different merges");
        self.once_if(is_full, "different merges with every row taken");
        self.once_if(
            holds(|r| r == PrepareResult::Ok),
            "different merges with OK",
        );
        self.once_if(
            holds(|r| r == PrepareResult::Abort),
            "different merges with ABORT",
        );
        self.once_if(
            holds(|r| r == PrepareResult::Abstain),
            "different merges with ABSTAIN",
        );
        self.once_if(
            holds(|r| r.retry_stamp() > 0),
            "different merges with RETRY",
        );
        self.once_if(done(Outcome::Commit), "different merges with a commit");
        self.once_if(done(Outcome::Abort), "different merges with an abort");
        self.once_if(
            rows.iter().any(|row| row.prepare.is_none()),
            "different merges with an outcome alone",
        );
    }

    /// At the end of a history.
    pub fn note_end(&mut self) {
        let lost = self
            .group
            .sent
            .iter()
            .filter(|sent| sent.arrived == 0)
            .count();
        let n = self.group.n;
        self.met.more("deliveries lost", n, lost as u64);
        self.met.more("events", n, self.events.len() as u64);
        self.met.once("histories", n);
        let is_small = self.group.machine.is_small();
        self.once_if(is_small, "histories of small models");
    }
}

/// Whether some row is settled as an agreed one, and whether some row is as an open one.
fn ways_settled(used: &[&Promise], agreement: usize) -> (bool, bool) {
    let mut ways = (false, false);
    let stamps = used.iter().flat_map(|had| had.table.rows.keys());
    for stamp in stamps {
        let rows = used.iter().filter_map(|had| had.table.rows.get(stamp));
        let held: Vec<_> = rows.filter_map(|row| row.prepare).collect();
        let most = held
            .iter()
            .map(|one| held.iter().filter(|other| *other == one).count())
            .max();
        let is_final = held.iter().any(|held| held.is_final);
        let agreed = most >= Some(agreement);
        ways.0 |= !is_final && agreed;
        ways.1 |= !is_final && most.is_some() && !agreed;
    }
    ways
}
