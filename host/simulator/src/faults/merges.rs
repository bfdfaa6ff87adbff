//! Faults in the merge: each changes the tables, which are then merged by the rules. That comes to a merge that takes the
//! right tables wrongly.

use crate::machine::SECOND;
use reference::bytes::put;
use reference::merge::tables_of_run;
use reference::row::{HeldOutcome, HeldPrepare};
use reference::{
    merged, proposal_check, Counts, Model, Outcome, PrepareResult, Row, Table, VALLEY,
};
use samples::MOST_ROWS;
use std::collections::BTreeSet;

/// The merge over bytes of tables that were changed so before.
pub fn merge(change: fn(&mut [Table]), model: Model, run: &[u8], view: u32, out: &mut [u8]) -> u8 {
    let mut tables = match tables_of_run(model, run) {
        Some(tables) => tables,
        None => return (SECOND.merge)(model, run, view, out),
    };
    change(&mut tables);
    match merged(model, &tables, view) {
        Ok(table) => {
            put(out, &table.image());
            0
        }
        Err(refusal) => refusal.code(),
    }
}

fn newest_view(tables: &[Table]) -> u32 {
    tables.iter().map(|table| table.view).max().unwrap_or(0)
}

fn agreement(tables: &[Table]) -> usize {
    let counts = tables.first().and_then(|table| Counts::from_n(table.n));
    counts.map_or(0, |counts| counts.agreement)
}

fn stamps(tables: &[Table]) -> BTreeSet<u64> {
    tables
        .iter()
        .flat_map(|table| table.rows.keys().copied())
        .collect()
}

/// The rows of a stamp in the used tables.
fn rows_of(tables: &mut [Table], stamp: u64) -> Vec<&mut Row> {
    let newest = newest_view(tables);
    let used = tables.iter_mut().filter(|table| table.view == newest);
    used.filter_map(|table| table.rows.get_mut(&stamp))
        .collect()
}

/// The rows of a stamp that hold a result tentatively, if no row of it holds a final one.
fn tentative(tables: &mut [Table], stamp: u64, result: PrepareResult) -> Vec<&mut Row> {
    let rows = rows_of(tables, stamp);
    if rows
        .iter()
        .any(|row| row.prepare.map_or(false, |held| held.is_final))
    {
        return Vec::new();
    }
    let held = Some(HeldPrepare::tentative(result));
    rows.into_iter().filter(|row| row.prepare == held).collect()
}

/// An agreed OK is final before any check.
pub fn agreed_made_final(tables: &mut [Table]) {
    let agreement = agreement(tables);
    for stamp in stamps(tables) {
        let agreed = tentative(tables, stamp, PrepareResult::Ok);
        if agreed.len() >= agreement {
            for row in agreed {
                row.prepare = Some(HeldPrepare::finalised(PrepareResult::Ok));
            }
        }
    }
}

/// What the merge checks, it checks by the day's order: the result is made final before the merge by the rules, which so
/// has nothing left to check.
pub fn checked_by_days_order(tables: &mut [Table]) {
    let mut unsettled = checked_in_turn(tables);
    while let Some(stamp) = unsettled.pop() {
        let mut settled = tables.to_vec();
        for table in &mut settled {
            let is_settled = |other: &u64| *other != stamp && !unsettled.contains(other);
            table.rows.retain(|other, _| is_settled(other));
            table.start_rows = table.start_rows.min(table.rows.len());
        }
        let view = tables.first().map_or(0, Table::promised);
        let settled = match merged(VALLEY, &settled, view) {
            Ok(settled) => settled,
            // Refused tables stay refused.
            Err(_) => return,
        };
        for row in rows_of(tables, stamp) {
            let result = proposal_check(&settled.rows, stamp, &row.body);
            row.prepare = Some(HeldPrepare::finalised(result));
        }
    }
}

/// The stamps that the merge checks, the last one first: "then agreed rows in rising stamp order, then open rows in rising
/// order".
fn checked_in_turn(tables: &mut [Table]) -> Vec<u64> {
    let agreement = agreement(tables);
    let (mut agreed, mut open) = (Vec::new(), Vec::new());
    for stamp in stamps(tables) {
        let rows = rows_of(tables, stamp);
        let held: Vec<HeldPrepare> = rows.iter().filter_map(|row| row.prepare).collect();
        let times = |one: &HeldPrepare| held.iter().filter(|other| *other == one).count();
        let is_settled = held.is_empty()
            || held.iter().any(|held| held.is_final)
            || rows.iter().any(|row| row.outcome.is_some());
        match held.iter().find(|one| times(one) >= agreement) {
            _ if is_settled => {}
            Some(one) if one.result == PrepareResult::Ok => agreed.push(stamp),
            Some(_) => {}
            None => open.push(stamp),
        }
    }
    agreed.extend(open);
    agreed.reverse();
    agreed
}

/// A result that is agreed with no table to spare loses one of its tables.
pub fn barely_agreed_opened(tables: &mut [Table]) {
    let agreement = agreement(tables);
    for stamp in stamps(tables) {
        let held: Vec<PrepareResult> = rows_of(tables, stamp)
            .iter()
            .filter_map(|row| row.prepare.map(|held| held.result))
            .collect();
        for result in held {
            let mut agreed = tentative(tables, stamp, result);
            if agreed.len() == agreement {
                agreed[0].prepare = None;
            }
        }
    }
    drop_empty_rows(tables);
}

/// "Not both zero."
fn drop_empty_rows(tables: &mut [Table]) {
    for table in tables {
        table
            .rows
            .retain(|_, row| row.prepare.is_some() || row.outcome.is_some());
        table.start_rows = table.start_rows.min(table.rows.len());
    }
}

/// All tables count as if of the greatest last normal view; what contradicts an earlier table is made to agree with it.
pub fn older_views_used(tables: &mut [Table]) {
    let newest = newest_view(tables);
    tables.iter_mut().for_each(|table| table.view = newest);
    for stamp in stamps(tables) {
        let mut rows = rows_of(tables, stamp);
        let is_final = |held: &HeldPrepare| held.is_final;
        let first_final = rows.iter().find_map(|row| row.prepare.filter(is_final));
        let first_outcome = rows.iter().find_map(|row| row.outcome);
        for row in &mut rows {
            row.prepare = if row.prepare.map_or(false, |held| held.is_final) {
                first_final
            } else {
                row.prepare
            };
            row.outcome = row.outcome.and(first_outcome);
        }
    }
}

/// The same box twice passes for two.
pub fn boxes_renumbered(tables: &mut [Table]) {
    for (place, table) in tables.iter_mut().enumerate() {
        table.box_number = place as u8;
    }
}

/// The first 512 stamps.
pub fn cut_at_512(tables: &mut [Table]) {
    let kept: BTreeSet<u64> = stamps(tables).into_iter().take(MOST_ROWS).collect();
    for table in tables {
        table.rows.retain(|stamp, _| kept.contains(stamp));
    }
}

pub fn noted_forgotten(tables: &mut [Table]) {
    let rows = tables.iter_mut().flat_map(|table| table.rows.values_mut());
    for row in rows {
        let done = |held: &HeldOutcome| held.is_done;
        row.outcome = row.outcome.filter(done);
    }
    drop_empty_rows(tables);
}

pub fn emptied(tables: &mut [Table]) {
    tables.iter_mut().for_each(|table| table.rows.clear());
}

/// Every value written becomes 0.
pub fn values_changed(tables: &mut [Table]) {
    let rows = tables.iter_mut().flat_map(|table| table.rows.values_mut());
    for row in rows {
        row.body.writes.values_mut().for_each(|value| *value = 0);
    }
}

/// Whatever is finally ABORT and has no outcome is aborted.
pub fn aborts_invented(tables: &mut [Table]) {
    let rows = tables.iter_mut().flat_map(|table| table.rows.values_mut());
    for row in rows {
        let is_abort = row.prepare == Some(HeldPrepare::finalised(PrepareResult::Abort));
        let invented = Some(HeldOutcome::done(Outcome::Abort)).filter(|_| is_abort);
        row.outcome = row.outcome.or(invented);
    }
}
