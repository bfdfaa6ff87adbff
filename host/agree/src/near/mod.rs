//! Cases near the boundaries: in each one exactly one thing differs from a case beside it, so that of all conditions of
//! document 01 exactly one turns. They are the same for every seed.
//!
//! - [`tables`]: which tables are by the rules, fresh ones, and buffers
//! - [`numbers`]: the order of the numbers
//! - [`bodies`]: stamps, bodies and registers in messages
//! - [`messages`]: what a box that holds a row, in every state of it, answers to each message
//! - [`room`]: how many new stamps a box takes in a view, which document 02 asks for
//! - [`views`]: messages 5 and 6
//! - [`checks`]: the check, each inequality at equality and one off it
//! - [`day_order`]: what document 02 adds to that for messages 1
//! - [`merges`], [`settling`]: when a merge is refused, and how it settles each stamp
//! - [`counts`]: the coordinator's count
//! - [`halving`]: the rows that the search for a stamp compares, which document 02 asks for

mod bodies;
mod checks;
mod counts;
mod day_order;
mod halving;
mod merges;
mod messages;
mod numbers;
mod room;
mod settling;
mod tables;
mod views;

use crate::case::Case;
use crate::cases::Named;
use crate::plain::Sent;
use samples::{Access, Row, Table};

pub fn all() -> Vec<Named> {
    let chapters = [
        tables::all,
        numbers::all,
        bodies::all,
        messages::all,
        room::all,
        views::all,
        checks::all,
        day_order::all,
        merges::all,
        settling::all,
        counts::all,
        halving::all,
    ];
    chapters.iter().flat_map(|cases| cases()).collect()
}

/// A stamp for RETRY where any will do.
const RETRY: u64 = 77;

fn named(name: impl Into<String>, case: Case) -> Named {
    (name.into(), case)
}

/// Messages 1 and 3 about one transaction, the latter with abort.
fn proposed(name: &str, held: &Table, of: &Row) -> [Named; 2] {
    let prepare = Case::answer(held, Sent::ProposePrepare(of.clone()));
    let outcome = Case::answer(held, Sent::ProposeOutcome(of.clone(), 2));
    [
        named(format!("message 1 {}", name), prepare),
        named(format!("message 3 {}", name), outcome),
    ]
}

fn accesses(of: &[(u8, u64)]) -> Vec<Access> {
    let access = |(register, number): &(u8, u64)| Access {
        register: *register,
        number: *number,
    };
    of.iter().map(access).collect()
}

/// A transaction that reads registers at versions and writes values to registers.
fn transaction(stamp: u64, reads: &[(u8, u64)], writes: &[(u8, u64)]) -> Row {
    Row::of(stamp, accesses(reads), accesses(writes))
}

/// The row of a transaction with a prepare byte and an outcome byte.
fn holding(transaction: Row, prepare: u8, outcome: u8) -> Row {
    let retry = if [4, 8].contains(&prepare) { RETRY } else { 0 };
    Row {
        prepare,
        outcome,
        retry,
        ..transaction
    }
}

/// A row whose body matters to no other row.
fn lonely(stamp: u64, prepare: u8, outcome: u8) -> Row {
    let register = (stamp % 64) as u8;
    holding(transaction(stamp, &[], &[(register, 7)]), prepare, outcome)
}

/// Box 1 of 3 in view 4, whose rows were there when the view began but for the last one.
fn normal(rows: Vec<Row>) -> Table {
    Table {
        box_number: 1,
        n: 3,
        mode: 0,
        view: 4,
        promised: 4,
        start_rows: (rows.len() as u32).saturating_sub(1),
        rows,
    }
}

/// The same box when it has promised view 7.
fn changing(rows: Vec<Row>) -> Table {
    Table {
        mode: 1,
        promised: 7,
        ..normal(rows)
    }
}
