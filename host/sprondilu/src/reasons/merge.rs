//! Why tables cannot be merged.

use super::NOT_SEEN;
use crate::commands::count::quorum;
use crate::image::{Row, Table, MOST_ROWS};
use crate::{names, stamps};
use std::collections::BTreeMap;

/// A table that was to be merged, and the name of its file.
pub struct Named {
    pub name: String,
    pub table: Table,
}

/// The reason of a refused merge for a view.
pub fn reason(number: u8, tables: &[Named], view: u32) -> String {
    let found = match number {
        11 => wrong_tables(tables, view),
        5 => of_two_rows(tables, other_bodies),
        6 => of_two_rows(tables, contradiction),
        7 => Some(full(tables)),
        _ => None,
    };
    found.unwrap_or_else(|| NOT_SEEN.to_string())
}

/// "not exactly f+1 images, unequal n, a box twice, mode 0, or promised not v"
fn wrong_tables(tables: &[Named], view: u32) -> Option<String> {
    let first = tables.first()?;
    let n = first.table.header.n;
    if let Some(other) = tables.iter().find(|other| other.table.header.n != n) {
        return Some(format!(
            "{} is of a group of {}, and {} of one of {}",
            first.name, n, other.name, other.table.header.n
        ));
    }
    let needed = quorum(n);
    if tables.len() != needed {
        return Some(format!(
            "a merge in a group of {} is of exactly {} tables, and here are {}",
            n,
            needed,
            tables.len()
        ));
    }
    for (place, one) in tables.iter().enumerate() {
        let same = |other: &&Named| other.table.header.box_number == one.table.header.box_number;
        if let Some(earlier) = tables[..place].iter().find(same) {
            return Some(format!(
                "{} and {} are both of box {}",
                earlier.name, one.name, one.table.header.box_number
            ));
        }
    }
    tables.iter().find_map(|one| unfit(one, view))
}

fn unfit(one: &Named, view: u32) -> Option<String> {
    let header = &one.table.header;
    if header.mode == 0 && header.view == view {
        return Some(format!(
            "{} is of a box that has started view {} already",
            one.name, view
        ));
    }
    if header.mode == 0 {
        return Some(format!(
            "{} is of a box that is normal in view {}, and has not promised view {}",
            one.name, header.view, view
        ));
    }
    if header.promised != view {
        return Some(format!(
            "{} is of a box that promised view {}, not view {}",
            one.name, header.promised, view
        ));
    }
    None
}

/// "only those of the greatest last normal view are used"
fn used(tables: &[Named]) -> impl Iterator<Item = &Named> {
    let greatest = tables.iter().map(|one| one.table.header.view).max();
    tables
        .iter()
        .filter(move |one| Some(one.table.header.view) == greatest)
}

/// The first stamp of which two used tables hold rows that do not go together.
fn of_two_rows(tables: &[Named], clash: fn(&Row, &Row) -> Option<String>) -> Option<String> {
    let mut rows: BTreeMap<u64, Vec<(&str, &Row)>> = BTreeMap::new();
    for one in used(tables) {
        for row in &one.table.rows {
            rows.entry(row.stamp).or_default().push((&one.name, row));
        }
    }
    rows.iter().find_map(|(stamp, held)| {
        held.iter().enumerate().find_map(|(place, (name, row))| {
            held[..place].iter().find_map(|(earlier, other)| {
                let what = clash(other, row)?;
                Some(format!(
                    "of the stamp {}, {} and {} hold {}",
                    stamps::short(*stamp),
                    earlier,
                    name,
                    what
                ))
            })
        })
    })
}

fn other_bodies(one: &Row, other: &Row) -> Option<String> {
    (one.body != other.body).then(|| {
        format!(
            "two bodies: {}, and {}",
            one.body.words(),
            other.body.words()
        )
    })
}

/// "two unequal finals or opposite outcomes"
fn contradiction(one: &Row, other: &Row) -> Option<String> {
    let finals = one.prepare >= 5 && other.prepare >= 5;
    if finals && (one.prepare, one.retry_stamp) != (other.prepare, other.retry_stamp) {
        let result = |row: &Row| names::prepare(row.prepare, row.retry_stamp);
        return Some(format!("{} and {}", result(one), result(other)));
    }
    // 1 and 3 are commits, 2 and 4 aborts.
    let outcomes = one.outcome > 0 && other.outcome > 0;
    if outcomes && one.outcome % 2 != other.outcome % 2 {
        return Some(format!(
            "{} and {}",
            names::outcome(one.outcome),
            names::outcome(other.outcome)
        ));
    }
    None
}

fn full(tables: &[Named]) -> String {
    let stamps: std::collections::BTreeSet<u64> = used(tables)
        .flat_map(|one| one.table.rows.iter().map(|row| row.stamp))
        .collect();
    format!(
        "the tables hold {} stamps between them, and one table holds at most {}: nothing was cut; tables of boxes that kept \
         room for the merge never hold so many",
        stamps.len(),
        MOST_ROWS
    )
}
