//! The further refusals of each message: the numbers that both programs give to messages whose bytes are by the rules, over
//! tables in which each of them is met.

use crate::agreed;
use crate::page::Page;
use crate::words;
use crate::{same, Checked};
use reference::numbers::ORDER;
use reference::Message;
use samples::{message, Access, Row, Table, MOST_ROWS};
use std::collections::BTreeSet;

const HELD: u64 = 10;
const NEW: u64 = 1_000;

pub fn all(page: &Page) -> Checked {
    let messages = messages();
    for kind in 1..=7 {
        let of_kind = messages.iter().filter(|message| message[0] == kind);
        let mut met = BTreeSet::new();
        for message in of_kind.clone() {
            for table in tables() {
                met.insert(agreed::answered(&table.image(), message)?.number);
            }
        }
        let message = of_kind.clone().next().and_then(|it| Message::parse(it));
        let message = message.ok_or("there is no such message")?;
        let heading = format!("Message {}: {}", kind, words::kind(&message));
        let sentence = sentence(&met);
        let lines = &page.section(&heading)?.lines;
        let found = lines.iter().find(|line| line.starts_with(BEGINNING));
        same(&heading, found.copied(), Some(&sentence[..]))?;
    }
    Ok(())
}

/// How the page says it: the beginning, and the numbers but 0 in the order in which they win.
const BEGINNING: &str = "The box may still refuse it with ";

fn sentence(met: &BTreeSet<u8>) -> String {
    let refusals = ORDER.iter().filter(|number| met.contains(&number.code()));
    let named = refusals.map(|number| format!("{} {}", number.code(), words::number(*number)));
    let named: Vec<String> = named.collect();
    let listed = match &named[..] {
        [before @ .., last] if !before.is_empty() => format!("{} or {}", before.join(", "), last),
        _ => named.concat(),
    };
    format!("{}{}.", BEGINNING, listed)
}

fn row(stamp: u64, register: u8) -> Row {
    let write = Access {
        register,
        number: 7,
    };
    Row::of(stamp, Vec::new(), vec![write])
}

/// Nothing held, a row in each state, the same between two views, and as many rows as there may be.
fn tables() -> Vec<Table> {
    let mut tables = vec![Table::in_view_0(Vec::new())];
    for (prepare, outcome) in [(1, 0), (5, 0), (6, 1), (0, 1), (0, 3), (0, 2), (0, 4)] {
        let held = Row {
            prepare,
            outcome,
            ..row(HELD, 5)
        };
        let normal = Table::in_view_0(vec![held]);
        let changing = Table {
            mode: 1,
            promised: 2,
            ..normal.clone()
        };
        tables.extend([normal, changing]);
    }
    let full = (1..=MOST_ROWS as u64).map(|stamp| Row {
        prepare: 1,
        ..row(stamp, 5)
    });
    tables.push(Table::in_view_0(full.collect()));
    tables
}

/// Messages of every kind, about the stamp that is held and a new one, with both bodies, results, outcomes and views.
fn messages() -> Vec<Vec<u8>> {
    let mut messages = Vec::new();
    for stamp in [HELD, NEW] {
        for register in [5, 6] {
            let row = row(stamp, register);
            messages.push(message::propose_prepare(&row));
            messages.extend([1, 2].map(|outcome| message::propose_outcome(&row, outcome)));
            messages.push(message::read(stamp, register));
        }
        for (view, code) in [(0, 1), (0, 2), (1, 1), (1, 2)] {
            messages.push(message::finalise_prepare(stamp, view, (code, 0)));
            messages.push(message::finalise_outcome(stamp, view, code));
        }
    }
    for view in 0..4 {
        let begun = message::settled(&Table::in_view_0(Vec::new()).image(), view);
        messages.push(message::change_view(view));
        messages.push(message::start_view(view, &begun));
    }
    messages
}
