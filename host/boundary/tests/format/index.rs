//! The index, which has every structure with its length and a link to its section, and the limits.

use crate::agreed;
use crate::codes::in_the_header;
use crate::page::Page;
use crate::sums::sum;
use crate::{same, Checked};
use samples::{message, random, Access, Dice, Row, Table, MOST_ROWS, TABLE_BYTES};

/// The structures that a table of offsets belongs to, and those that are made of others.
const WITH_OFFSETS: [&str; 16] = [
    "Stamp",
    "Header",
    "Row",
    "Read of a body",
    "Write of a body",
    "Message 1: propose prepare",
    "Message 2: finalise prepare",
    "Message 3: propose outcome",
    "Message 4: finalise outcome",
    "Message 5: change view",
    "Message 6: start view",
    "Message 7: read",
    "Reply",
    "Refusal",
    "Counted reply",
    "Record in C",
];
const MADE_OF_OTHERS: [&str; 6] = [
    "Table image",
    "Body",
    "Answer with the rows compared",
    "Run of a merge",
    "Answer of the count",
    "Answer of valid",
];

/// Every structure is in the index once, linked to its section, with the length that its table of offsets comes to.
pub fn structures(page: &Page) -> Checked {
    let rows = page.section("Index")?.table("| structure | bytes |")?;
    let mut seen = Vec::new();
    for row in &rows {
        let (heading, anchor) = link(row[0]).ok_or_else(|| format!("{} is no link", row[0]))?;
        page.section(heading)?;
        same("anchor", anchor, &slug(heading)[..])?;
        length(page, heading, row[1])?;
        seen.push(heading);
    }
    let mut expected = [&WITH_OFFSETS[..], &MADE_OF_OTHERS].concat();
    seen.sort_unstable();
    expected.sort_unstable();
    same("structures", seen, expected)?;
    links(page)
}

/// The heading and the anchor of `[heading](#anchor)`.
fn link(cell: &str) -> Option<(&str, &str)> {
    let inner = cell.strip_prefix('[')?.strip_suffix(')')?;
    inner.split_once("](#")
}

/// The anchor that a heading has: its letters and digits in small letters, with a stroke for each space.
fn slug(heading: &str) -> String {
    let kept = heading
        .chars()
        .filter(|it| it.is_alphanumeric() || *it == ' ');
    let lower = kept.flat_map(char::to_lowercase);
    lower.map(|it| if it == ' ' { '-' } else { it }).collect()
}

/// Every link within the page leads to one of its headings.
fn links(page: &Page) -> Checked {
    let slugs: Vec<String> = page.sections.iter().map(|it| slug(it.heading)).collect();
    let lines = page.sections.iter().flat_map(|section| &section.lines);
    for part in lines.flat_map(|line| line.split("](#").skip(1)) {
        let anchor = part.split(')').next().unwrap_or(part).to_string();
        if !slugs.contains(&anchor) {
            return Err(format!("no heading has the anchor #{}", anchor));
        }
    }
    Ok(())
}

/// The length of a structure in the index, for numbers of rows and accesses.
fn length(page: &Page, heading: &str, said: &str) -> Checked {
    if !WITH_OFFSETS.contains(&heading) {
        return length_of_others(heading, said);
    }
    let layout = page.layout(heading)?;
    for accesses in [1, 2, 8] {
        let known = [("accesses", accesses), ("length", 24 + accesses)];
        let expected = layout.length(&known)? as u128;
        same(heading, sum(said, &known)?, expected)?;
    }
    Ok(())
}

fn length_of_others(heading: &str, said: &str) -> Checked {
    for rows in [0, 1, 7] {
        let table = random::table(&mut Dice::seeded(1), rows);
        let bodies = table.rows.iter().map(Row::body_length).sum::<usize>();
        let known = [
            ("rows", rows as u128),
            (
                "accesses",
                table
                    .rows
                    .iter()
                    .map(|it| it.reads.len() + it.writes.len())
                    .sum::<usize>() as u128,
            ),
        ];
        match heading {
            "Table image" => same(heading, sum(said, &known)?, table.image().len() as u128)?,
            "Body" => same(heading, sum(said, &known)?, bodies as u128)?,
            "Run of a merge" => same(heading, said, "its images together")?,
            _ => same(heading, said, "a word of 64 bits")?,
        }
    }
    Ok(())
}

/// Each limit is one: what is at it is taken, and what is beyond it is refused.
pub fn limits(page: &Page) -> Checked {
    let rows = page
        .section("What holds everywhere")?
        .table("| limit | value |")?;
    for row in &rows {
        let value = sum(row[1], &[])? as u64;
        limit(row[0], value).map_err(|why| format!("{}: {}", row[0], why))?;
        match row[2] {
            "" => {}
            name => in_the_header(name, value)?,
        }
    }
    same("limits", rows.len(), 12)
}

/// Each offset with a name in C is that of the field, and the C header has it.
pub fn offsets_in_c(page: &Page) -> Checked {
    let rows = page
        .section("Offsets in C")?
        .table("| in C | structure | field | offset |")?;
    for row in &rows {
        let offset = sum(row[3], &[])? as u64;
        let field = page.layout(row[1])?.field(row[2])?.offset;
        same(row[0], field as u64, offset)?;
        in_the_header(row[0], offset)?;
    }
    let length = page.layout("Counted reply")?.length(&[])?;
    in_the_header("SPRONDILU_COUNTED_BYTES", length as u64)?;
    same("offsets", rows.len(), 11)
}

fn limit(name: &str, value: u64) -> Checked {
    let fresh = |length: u64| Ok(agreed::fresh(3, 0, length as usize)?.0);
    let lent = |length: u64| number_in(length as usize, 24);
    let replied = |length: u64| number_in(TABLE_BYTES, length as usize);
    let merged = |length: u64| Ok(agreed::merged(&[], 1, length as usize)?.0);
    match name {
        "rows of a table" => greatest(value, |rows| {
            (1..=rows).map(|stamp| row(stamp, 1, 0)).collect()
        }),
        "reads of a body" => greatest(value, |reads| vec![row(1, reads, 1)]),
        "writes of a body" => greatest(value, |writes| vec![row(1, 1, writes)]),
        "greatest register" => greatest(value, |register| vec![reading(register)]),
        "greatest stamp" => greatest(value, |stamp| vec![row(stamp, 1, 0)]),
        "greatest view" => same("view", value, u64::from(u32::MAX)),
        "longest image" => same("image", full().image().len() as u64, value),
        "shortest table buffer" => least(value, fresh).and_then(|()| least(value, lent)),
        "shortest output buffer of a merge" => least(value, merged),
        "shortest reply buffer" => least(value, replied),
        "longest message 6" => same("message 6", longest_start()?, value),
        "longest other message" => same("message 3", longest_outcome()?, value),
        _ => Err("there is no such limit".to_string()),
    }
}

/// That rows made for the value stand in an image, and those for one more do not.
fn greatest(value: u64, rows: impl Fn(u64) -> Vec<Row>) -> Checked {
    let number = |value| agreed::table_number(&Table::in_view_0(rows(value)).image());
    same(
        "at it and above",
        (number(value)?, number(value + 1)?),
        (0, 2),
    )
}

/// That a buffer of one byte less is too small, and one of that length is not.
fn least(value: u64, number: impl Fn(u64) -> Checked<u8>) -> Checked {
    let small = [number(value - 1)? == 1, number(value)? == 1];
    same("below it and at it", small, [true, false])
}

fn accesses(count: u64) -> Vec<Access> {
    let access = |register| Access {
        register,
        number: 0,
    };
    (0..count as u8).map(access).collect()
}

fn row(stamp: u64, reads: u64, writes: u64) -> Row {
    Row {
        outcome: 1,
        ..Row::of(stamp, accesses(reads), accesses(writes))
    }
}

fn reading(register: u64) -> Row {
    let mut row = row(1, 1, 0);
    row.reads[0].register = register as u8;
    row
}

fn full() -> Table {
    random::full_table(&mut Dice::seeded(1), MOST_ROWS)
}

/// The number of a read in buffers of these lengths.
fn number_in(table: usize, reply: usize) -> Checked<u8> {
    let held = Table::in_view_0(Vec::new()).image();
    agreed::number_in(&held, &message::read(1, 0), table, reply)
}

/// The length of message 6 with the longest image, which a box takes.
fn longest_start() -> Checked<u64> {
    let full = full();
    let image = message::settled(&full.image(), 1);
    let asked = message::start_view(1, &image);
    let held = Table {
        n: full.n,
        ..Table::in_view_0(Vec::new())
    };
    same("number", agreed::answered(&held.image(), &asked)?.number, 0)?;
    Ok(asked.len() as u64)
}

/// The length of message 3 with as many accesses as there may be, which a box takes.
fn longest_outcome() -> Checked<u64> {
    let asked = message::propose_outcome(&row(1, 4, 4), 1);
    let held = Table::in_view_0(Vec::new()).image();
    same("number", agreed::answered(&held, &asked)?.number, 0)?;
    Ok(asked.len() as u64)
}
