//! One row of a table: a body, a prepare and an outcome, and the two bytes in which the image codes these.

use crate::body::Body;
use crate::stamps::is_stamp;
use std::collections::BTreeMap;

/// The rows of a table under their stamps: a stamp "orders and names one transaction".
pub type Rows = BTreeMap<u64, Row>;

/// A result of the check. The stamp of RETRY is part of it.
#[derive(Clone, Copy, Debug, PartialEq, Eq)]
pub enum PrepareResult {
    Ok,
    Abort,
    Abstain,
    Retry(u64),
}

impl PrepareResult {
    /// From a code of 1 to 4 and a retry stamp: "The retry stamp is a stamp for RETRY and 0 otherwise."
    pub fn from_code(code: u8, retry_stamp: u64) -> Option<PrepareResult> {
        match (code, retry_stamp) {
            (1, 0) => Some(PrepareResult::Ok),
            (2, 0) => Some(PrepareResult::Abort),
            (3, 0) => Some(PrepareResult::Abstain),
            (4, stamp) if is_stamp(stamp) => Some(PrepareResult::Retry(stamp)),
            _ => None,
        }
    }

    pub fn code(self) -> u8 {
        match self {
            PrepareResult::Ok => 1,
            PrepareResult::Abort => 2,
            PrepareResult::Abstain => 3,
            PrepareResult::Retry(_) => 4,
        }
    }

    pub fn retry_stamp(self) -> u64 {
        match self {
            PrepareResult::Retry(stamp) => stamp,
            _ => 0,
        }
    }
}

/// "Prepare: 0 none; 1 to 4 tentative OK, ABORT, ABSTAIN, RETRY; 5 to 8 the same, final." None is no `HeldPrepare`.
#[derive(Clone, Copy, Debug, PartialEq, Eq)]
pub struct HeldPrepare {
    pub result: PrepareResult,
    pub is_final: bool,
}

impl HeldPrepare {
    pub fn tentative(result: PrepareResult) -> HeldPrepare {
        let is_final = false;
        HeldPrepare { result, is_final }
    }

    pub fn finalised(result: PrepareResult) -> HeldPrepare {
        let is_final = true;
        HeldPrepare { result, is_final }
    }

    /// The outer nothing is a broken rule, the inner one is prepare byte 0.
    pub fn from_byte(byte: u8, retry_stamp: u64) -> Option<Option<HeldPrepare>> {
        match byte {
            0 if retry_stamp == 0 => Some(None),
            0 => None,
            1..=4 => PrepareResult::from_code(byte, retry_stamp)
                .map(|result| Some(HeldPrepare::tentative(result))),
            _ => PrepareResult::from_code(byte - 4, retry_stamp)
                .map(|result| Some(HeldPrepare::finalised(result))),
        }
    }

    pub fn byte(self) -> u8 {
        self.result.code() + if self.is_final { 4 } else { 0 }
    }
}

/// What a coordinator makes of a transaction in the end.
#[derive(Clone, Copy, Debug, PartialEq, Eq)]
pub enum Outcome {
    Commit,
    Abort,
}

impl Outcome {
    /// "1 commit or 2 abort"
    pub fn from_code(code: u8) -> Option<Outcome> {
        match code {
            1 => Some(Outcome::Commit),
            2 => Some(Outcome::Abort),
            _ => None,
        }
    }

    pub fn code(self) -> u8 {
        match self {
            Outcome::Commit => 1,
            Outcome::Abort => 2,
        }
    }
}

/// "Outcome: 0 none, 1 commit noted, 2 abort noted, 3 commit done, 4 abort done." None is no `HeldOutcome`.
#[derive(Clone, Copy, Debug, PartialEq, Eq)]
pub struct HeldOutcome {
    pub outcome: Outcome,
    pub is_done: bool,
}

impl HeldOutcome {
    pub fn noted(outcome: Outcome) -> HeldOutcome {
        let is_done = false;
        HeldOutcome { outcome, is_done }
    }

    pub fn done(outcome: Outcome) -> HeldOutcome {
        let is_done = true;
        HeldOutcome { outcome, is_done }
    }

    /// The outer nothing is a broken rule, the inner one is outcome byte 0.
    pub fn from_byte(byte: u8) -> Option<Option<HeldOutcome>> {
        match byte {
            0 => Some(None),
            1 | 2 => Outcome::from_code(byte).map(|outcome| Some(HeldOutcome::noted(outcome))),
            _ => Outcome::from_code(byte - 2).map(|outcome| Some(HeldOutcome::done(outcome))),
        }
    }

    pub fn byte(self) -> u8 {
        self.outcome.code() + if self.is_done { 2 } else { 0 }
    }
}

/// A row without its stamp, which is the key that it stands under. "Not both zero": one of prepare and outcome is held.
#[derive(Clone, Debug, PartialEq, Eq)]
pub struct Row {
    pub body: Body,
    pub prepare: Option<HeldPrepare>,
    pub outcome: Option<HeldOutcome>,
}

impl Row {
    /// A row about to get a prepare or an outcome.
    pub fn with_body(body: &Body) -> Row {
        Row {
            body: body.clone(),
            prepare: None,
            outcome: None,
        }
    }

    /// The same row with its result final and its outcome done, as a started view holds it.
    pub fn settled(&self) -> Row {
        Row {
            body: self.body.clone(),
            prepare: self.prepare.map(|held| HeldPrepare::finalised(held.result)),
            outcome: self.outcome.map(|held| HeldOutcome::done(held.outcome)),
        }
    }

    pub fn retry_stamp(&self) -> u64 {
        self.prepare.map_or(0, |held| held.result.retry_stamp())
    }

    pub fn prepare_byte(&self) -> u8 {
        self.prepare.map_or(0, HeldPrepare::byte)
    }

    pub fn outcome_byte(&self) -> u8 {
        self.outcome.map_or(0, HeldOutcome::byte)
    }

    /// "Committed: outcome 3."
    pub fn is_committed(&self) -> bool {
        self.outcome == Some(HeldOutcome::done(Outcome::Commit))
    }

    /// "Prepared: prepare byte 1 or 5 and outcome 0, 1 or 2."
    pub fn is_prepared(&self) -> bool {
        let ok = self.prepare.map(|held| held.result) == Some(PrepareResult::Ok);
        let not_done = self.outcome.map_or(true, |held| !held.is_done);
        ok && not_done
    }
}
