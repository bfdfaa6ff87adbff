//! "The merge for view v"

use crate::bytes::put;
use crate::check::check;
use crate::group::Counts;
use crate::numbers::{first_that_applies, Number};
use crate::row::{HeldOutcome, HeldPrepare, Outcome, PrepareResult, Row, Rows};
use crate::table::{Mode, Table};
use crate::Model;
use std::collections::{BTreeMap, BTreeSet};

/// For each stamp the rows that the used tables hold for it, in no order that matters.
type HeldRows<'a> = BTreeMap<u64, Vec<&'a Row>>;

/// The merge over bytes. "Output bytes past the image stay", and after a refusal all of them.
pub fn merge_for(model: Model, run: &[u8], view: u32, out: &mut [u8]) -> Number {
    if out.len() < model.buffer {
        return Number::SmallBuffer;
    }
    let tables = tables_of_run(model, run).ok_or(Number::BadTable);
    match tables.and_then(|tables| merged(model, &tables, view)) {
        Ok(table) => {
            put(out, &table.image());
            Number::Done
        }
        Err(refusal) => refusal,
    }
}

/// "laid end to end in one lent buffer"; nothing if "the run isn't one or more whole images".
pub fn tables_of_run(model: Model, run: &[u8]) -> Option<Vec<Table>> {
    let (first, length) = Table::parse_for(model, run)?;
    let mut tables = vec![first];
    let mut rest = run.get(length..)?;
    while !rest.is_empty() {
        let (table, length) = Table::parse_for(model, rest)?;
        tables.push(table);
        rest = rest.get(length..)?;
    }
    Some(tables)
}

/// The merge over structures: "The image is normal, view v, box v mod n, start rows equal to rows."
pub fn merged(model: Model, tables: &[Table], view: u32) -> Result<Table, Number> {
    let held = held_rows(tables);
    let refusal = first_that_applies(|number| match number {
        Number::WrongTables => wrong_tables(tables, view),
        Number::OtherBody => held.values().any(|rows| two_bodies(rows)),
        Number::Contradiction => held.values().any(|rows| contradiction(rows)),
        Number::Full => held.len() > model.rows,
        _ => false,
    });
    let n = tables.first().map_or(0, |table| table.n);
    match (refusal, Counts::from_n(n)) {
        (Number::Done, Some(counts)) => {
            let rows = settled(&held, counts.agreement);
            let box_number = (view % u32::from(n)) as u8;
            Ok(Table::beginning(n, box_number, view, rows))
        }
        (Number::Done, None) => Err(Number::WrongTables),
        (refusal, _) => Err(refusal),
    }
}

/// "not exactly f+1 images, unequal n, a box twice, mode 0, or promised not v"
fn wrong_tables(tables: &[Table], view: u32) -> bool {
    let boxes: BTreeSet<u8> = tables.iter().map(|table| table.box_number).collect();
    let good = |table: &Table| {
        let quorum = Counts::from_n(table.n).map(|counts| counts.quorum);
        quorum == Some(tables.len())
            && table.n == tables[0].n
            && table.mode == Mode::Changing { promised: view }
    };
    tables.is_empty() || boxes.len() != tables.len() || !tables.iter().all(good)
}

/// "only those of the greatest last normal view are used", and "Each stamp in them gets one row."
fn held_rows(tables: &[Table]) -> HeldRows<'_> {
    let greatest = tables.iter().map(|table| table.view).max();
    let used = tables.iter().filter(|table| Some(table.view) == greatest);
    let mut held = HeldRows::new();
    for (stamp, row) in used.flat_map(|table| &table.rows) {
        held.entry(*stamp).or_default().push(row);
    }
    held
}

/// "5 for one stamp with two bodies"
fn two_bodies(rows: &[&Row]) -> bool {
    rows.iter().any(|row| row.body != rows[0].body)
}

/// "6 for two unequal finals or opposite outcomes"
fn contradiction(rows: &[&Row]) -> bool {
    let finals = final_results(rows);
    let outcomes = outcomes(rows);
    finals.iter().any(|result| *result != finals[0])
        || outcomes.iter().any(|outcome| *outcome != outcomes[0])
}

fn final_results(rows: &[&Row]) -> Vec<PrepareResult> {
    let prepares = rows.iter().filter_map(|row| row.prepare);
    let finals = prepares.filter(|held| held.is_final);
    finals.map(|held| held.result).collect()
}

fn tentative_results(rows: &[&Row]) -> Vec<PrepareResult> {
    let prepares = rows.iter().filter_map(|row| row.prepare);
    let tentatives = prepares.filter(|held| !held.is_final);
    tentatives.map(|held| held.result).collect()
}

fn outcomes(rows: &[&Row]) -> Vec<Outcome> {
    let held = rows.iter().filter_map(|row| row.outcome);
    held.map(|held| held.outcome).collect()
}

/// How the prepare of one stamp is settled.
#[derive(Clone, Copy, Debug, PartialEq, Eq)]
enum Plan {
    /// With no check: by a final result, an outcome or an agreed refusal; nothing if no table holds a prepare.
    Without(Option<PrepareResult>),
    /// "Agreed OK without one is checked."
    CheckAgreed,
    /// Open and without an outcome: "otherwise checked".
    CheckOpen,
}

/// "Prepare, if any table holds one: a final result stays; else a tentative result found in at least the agreement count
/// of tables [..] is agreed; the rest are open. Agreed and not OK stays. Agreed OK with an outcome stays OK. Agreed OK
/// without one is checked. Open with commit is OK, with abort ABORT, otherwise checked."
fn plan(rows: &[&Row], agreement: usize) -> Plan {
    let finals = final_results(rows);
    let tentatives = tentative_results(rows);
    if let Some(result) = finals.first() {
        return Plan::Without(Some(*result));
    }
    if tentatives.is_empty() {
        return Plan::Without(None);
    }
    match (agreed(&tentatives, agreement), outcomes(rows).first()) {
        (Some(PrepareResult::Ok), None) => Plan::CheckAgreed,
        (Some(result), _) => Plan::Without(Some(result)),
        (None, Some(Outcome::Commit)) => Plan::Without(Some(PrepareResult::Ok)),
        (None, Some(Outcome::Abort)) => Plan::Without(Some(PrepareResult::Abort)),
        (None, None) => Plan::CheckOpen,
    }
}

/// "a tentative result found in at least the agreement count of tables (RETRY stamps count as part of the result)"
fn agreed(tentatives: &[PrepareResult], agreement: usize) -> Option<PrepareResult> {
    let times = |result| tentatives.iter().filter(|other| **other == result).count();
    let mut results = tentatives.iter().copied();
    results.find(|result| times(*result) >= agreement)
}

/// "Checks run over the merged table with final and outcome rows first, then agreed rows in rising stamp order, then open
/// rows in rising order; a check sees only rows settled before it."
fn settled(held: &HeldRows<'_>, agreement: usize) -> Rows {
    let mut settled = Rows::new();
    for (stamp, rows) in held {
        if let Plan::Without(result) = plan(rows, agreement) {
            settled.insert(*stamp, settled_row(rows, result));
        }
    }
    for turn in [Plan::CheckAgreed, Plan::CheckOpen] {
        for (stamp, rows) in held {
            if plan(rows, agreement) == turn {
                let result = check(&settled, *stamp, &rows[0].body);
                settled.insert(*stamp, settled_row(rows, Some(result)));
            }
        }
    }
    settled
}

/// "Outcome: any commit or abort held becomes done." "All results become final."
fn settled_row(rows: &[&Row], result: Option<PrepareResult>) -> Row {
    Row {
        body: rows[0].body.clone(),
        prepare: result.map(HeldPrepare::finalised),
        outcome: outcomes(rows).first().copied().map(HeldOutcome::done),
    }
}
