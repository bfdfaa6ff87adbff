//! Each field of each structure where the page has it: numbers that are all different are laid there, and the second program
//! reads each as what it is; the library does the same with them.

use crate::agreed::{self, Answered};
use crate::layout::little_endian;
use crate::page::{cells, Page};
use crate::{same, Checked};
use reference::{Body, Counted, HeldOutcome, HeldPrepare, Message, Mode, Outcome, PrepareResult};
use samples::{message, Access, TABLE_BYTES};

/// Stamps and views in which each byte that may be is another.
const STAMP: u64 = 0x1112_1314_1516;
const LATER: u64 = 0x2122_2324_2526;
const RETRY: u64 = 0x3132_3334_3536;
const VERSION: u64 = 0x0102_0304_0506;
const VALUE: u64 = 0x4142_4344_4546_4748;
const VIEW: u32 = 0x5152_5354;
const PROMISED: u32 = 0x6162_6364;

pub fn all(page: &Page) -> Checked {
    image(page)?;
    let messages = [
        message_1, message_2, message_3, message_4, message_5, message_6, message_7,
    ];
    messages.iter().try_for_each(|message| message(page))?;
    reply(page)?;
    answer_with_the_rows_compared(page)?;
    stamp(page)?;
    counted_reply(page)?;
    record(page)?;
    answer_of_the_count(page)?;
    answer_of_valid(page)
}

fn access(register: u8, number: u64) -> Access {
    Access { register, number }
}

/// Two rows: RETRY final with a commit done, of a read and two writes; and tentative ABORT, of a write.
fn table() -> samples::Table {
    let first = samples::Row {
        retry: RETRY,
        prepare: 8,
        outcome: 3,
        ..row()
    };
    let second = samples::Row {
        prepare: 2,
        ..samples::Row::of(LATER, Vec::new(), vec![access(6, 5)])
    };
    samples::Table {
        box_number: 4,
        n: 5,
        mode: 1,
        view: VIEW,
        promised: PROMISED,
        start_rows: 1,
        rows: vec![first, second],
    }
}

/// A read and two writes of which nothing is held.
fn row() -> samples::Row {
    let writes = vec![access(8, VALUE), access(9, 2)];
    samples::Row::of(STAMP, vec![access(3, VERSION)], writes)
}

/// The same, tentative OK and with an abort that is noted.
fn held() -> samples::Row {
    samples::Row {
        prepare: 1,
        outcome: 2,
        ..row()
    }
}

fn body() -> Body {
    Body {
        reads: [(3, VERSION)].into(),
        writes: [(8, VALUE), (9, 2)].into(),
    }
}

/// The table as the second program has it.
fn expected_table() -> reference::Table {
    let first = reference::Row {
        body: body(),
        prepare: Some(HeldPrepare::finalised(PrepareResult::Retry(RETRY))),
        outcome: Some(HeldOutcome::done(Outcome::Commit)),
    };
    let second = reference::Row {
        body: Body {
            writes: [(6, 5)].into(),
            ..Body::default()
        },
        prepare: Some(HeldPrepare::tentative(PrepareResult::Abort)),
        outcome: None,
    };
    reference::Table {
        box_number: 4,
        n: 5,
        mode: Mode::Changing { promised: PROMISED },
        view: VIEW,
        start_rows: 1,
        rows: [(STAMP, first), (LATER, second)].into(),
    }
}

/// The accesses of the row by the page's tables of a read and a write.
fn laid_body(page: &Page, row: &samples::Row) -> Checked<Vec<u8>> {
    let read = page.layout("Read of a body")?;
    let write = page.layout("Write of a body")?;
    let mut bytes = Vec::new();
    for it in &row.reads {
        let register = u64::from(it.register);
        bytes.extend(read.laid(&[("register", register), ("version", it.number)])?);
    }
    for it in &row.writes {
        let register = u64::from(it.register);
        bytes.extend(write.laid(&[("register", register), ("value", it.number)])?);
    }
    Ok(bytes)
}

fn laid_header(page: &Page, table: &samples::Table) -> Checked<Vec<u8>> {
    page.layout("Header")?.laid(&[
        ("format", 1),
        ("box", u64::from(table.box_number)),
        ("n", u64::from(table.n)),
        ("mode", u64::from(table.mode)),
        ("rows", table.rows.len() as u64),
        ("view", u64::from(table.view)),
        ("promised view", u64::from(table.promised)),
        ("start rows", u64::from(table.start_rows)),
        ("total length", table.length() as u64),
    ])
}

/// The image by the page's tables of a header, a row, a read and a write.
fn laid_image(page: &Page, table: &samples::Table) -> Checked<Vec<u8>> {
    let mut bytes = laid_header(page, table)?;
    for (index, row) in table.rows.iter().enumerate() {
        bytes.extend(page.layout("Row")?.laid(&[
            ("stamp", row.stamp),
            ("retry stamp", row.retry),
            ("body offset", table.body_place(index) as u64),
            ("reads", row.reads.len() as u64),
            ("writes", row.writes.len() as u64),
            ("prepare byte", u64::from(row.prepare)),
            ("outcome byte", u64::from(row.outcome)),
        ])?);
    }
    for row in &table.rows {
        bytes.extend(laid_body(page, row)?);
    }
    Ok(bytes)
}

fn image(page: &Page) -> Checked {
    let image = laid_image(page, &table())?;
    same("image", &image, &table().image())?;
    let parsed = reference::Table::parse(&image).map(|(table, _)| table);
    same("table", parsed, Some(expected_table()))?;
    same("number", agreed::table_number(&image)?, 0)
}

/// A message that was laid by the page: the second program reads it as expected, other bytes have been put together for it
/// apart, and both programs take it in a table that fits.
fn taken(
    bytes: &[u8],
    apart: &[u8],
    expected: Message,
    fitting: &samples::Table,
) -> Checked<Answered> {
    same("message", bytes, apart)?;
    same("message", Message::parse(bytes), Some(expected))?;
    let answered = agreed::answered(&fitting.image(), bytes)?;
    same("number", answered.number, 0)?;
    Ok(answered)
}

/// A normal table of the view in which these rows were added.
fn normal(view: u32, rows: Vec<samples::Row>) -> samples::Table {
    samples::Table {
        mode: 0,
        view,
        promised: view,
        start_rows: 0,
        rows,
        ..table()
    }
}

fn message_1(page: &Page) -> Checked {
    let stamp = STAMP;
    let values = [("kind", 1), ("stamp", stamp), ("reads", 1), ("writes", 2)];
    let head = page.layout("Message 1: propose prepare")?.laid(&values)?;
    let bytes = [head, laid_body(page, &row())?].concat();
    let body = body();
    let expected = Message::ProposePrepare { stamp, body };
    let apart = message::propose_prepare(&row());
    let answered = taken(&bytes, &apart, expected, &normal(VIEW, vec![]))?;
    let held = samples::Row {
        prepare: 1,
        ..row()
    };
    same("table", answered.image, normal(VIEW, vec![held]).image())
}

fn message_2(page: &Page) -> Checked {
    let (stamp, view) = (STAMP, VIEW);
    let values = [
        ("kind", 2),
        ("stamp", stamp),
        ("view", view.into()),
        ("result", 4),
        ("retry stamp", RETRY),
    ];
    let bytes = page.layout("Message 2: finalise prepare")?.laid(&values)?;
    let result = PrepareResult::Retry(RETRY);
    let expected = Message::FinalisePrepare {
        stamp,
        view,
        result,
    };
    let apart = message::finalise_prepare(stamp, view, (4, RETRY));
    let answered = taken(&bytes, &apart, expected, &normal(view, vec![held()]))?;
    let finalised = samples::Row {
        prepare: 8,
        retry: RETRY,
        ..held()
    };
    same(
        "table",
        answered.image,
        normal(view, vec![finalised]).image(),
    )
}

fn message_3(page: &Page) -> Checked {
    let (stamp, outcome) = (STAMP, Outcome::Abort);
    let values = [
        ("kind", 3),
        ("stamp", stamp),
        ("outcome", 2),
        ("reads", 1),
        ("writes", 2),
    ];
    let head = page.layout("Message 3: propose outcome")?.laid(&values)?;
    let bytes = [head, laid_body(page, &row())?].concat();
    let body = body();
    let expected = Message::ProposeOutcome {
        stamp,
        outcome,
        body,
    };
    let apart = message::propose_outcome(&row(), 2);
    let answered = taken(&bytes, &apart, expected, &normal(VIEW, vec![]))?;
    let noted = samples::Row {
        outcome: 2,
        ..row()
    };
    same("table", answered.image, normal(VIEW, vec![noted]).image())
}

fn message_4(page: &Page) -> Checked {
    let (stamp, view, outcome) = (STAMP, VIEW, Outcome::Abort);
    let values = [
        ("kind", 4),
        ("stamp", stamp),
        ("view", view.into()),
        ("outcome", 2),
    ];
    let bytes = page.layout("Message 4: finalise outcome")?.laid(&values)?;
    let expected = Message::FinaliseOutcome {
        stamp,
        view,
        outcome,
    };
    let apart = message::finalise_outcome(stamp, view, 2);
    let answered = taken(&bytes, &apart, expected, &normal(view, vec![held()]))?;
    let done = samples::Row {
        outcome: 4,
        ..held()
    };
    same("table", answered.image, normal(view, vec![done]).image())
}

fn message_5(page: &Page) -> Checked {
    let view = VIEW;
    let values = [("kind", 5), ("view", view.into())];
    let bytes = page.layout("Message 5: change view")?.laid(&values)?;
    let expected = Message::ChangeView { view };
    let empty = normal(0, vec![]);
    let answered = taken(&bytes, &message::change_view(view), expected, &empty)?;
    let promised = samples::Table {
        mode: 1,
        promised: view,
        ..empty
    };
    same("table", answered.image, promised.image())
}

fn message_6(page: &Page) -> Checked {
    let view = VIEW;
    let begun = message::settled(&table().image(), view);
    let image = reference::Table::parse(&begun).map(|(table, _)| table);
    let image = image.ok_or("there is no image to begin with")?;
    let values = [("kind", 6), ("view", view.into())];
    let head = page.layout("Message 6: start view")?.laid(&values)?;
    let bytes = [head, begun.clone()].concat();
    let expected = Message::StartView { view, image };
    let apart = message::start_view(view, &begun);
    let answered = taken(&bytes, &apart, expected, &normal(0, vec![]))?;
    same("what is kept", answered.image[1], table().box_number)?;
    same("what is taken", &answered.image[2..], &begun[2..])
}

fn message_7(page: &Page) -> Checked {
    let (stamp, register) = (STAMP, 8);
    let values = [("kind", 7), ("stamp", stamp), ("register", register.into())];
    let bytes = page.layout("Message 7: read")?.laid(&values)?;
    let expected = Message::Read { stamp, register };
    let done = samples::Row {
        outcome: 3,
        ..row()
    };
    let apart = message::read(stamp, register);
    let answered = taken(&bytes, &apart, expected, &normal(VIEW, vec![done]))?;
    let found = page.layout("Reply")?.number(&answered.reply, "value")?;
    same("value", found, VALUE)
}

/// A reply in which every number is another: to message 1, for a row with RETRY. And the number of a refusal.
fn reply(page: &Page) -> Checked {
    let held = samples::Row {
        retry: RETRY,
        prepare: 8,
        ..row()
    };
    let asked = message::propose_prepare(&row());
    let answered = agreed::answered(&normal(VIEW, vec![held]).image(), &asked)?;
    let layout = page.layout("Reply")?;
    let expected = [
        ("number", 0),
        ("kind", 1),
        ("box", 4),
        ("state byte", 8),
        ("view", u64::from(VIEW)),
        ("stamp", STAMP),
        ("value", RETRY),
    ];
    same("reply", &layout.laid(&expected)?, &answered.reply)?;
    let refused = agreed::answered(&table().image(), &asked)?;
    let layout = page.layout("Refusal")?;
    let laid = layout.laid(&[("number", u64::from(refused.number)), ("zero", 0)])?;
    same("refusal", (refused.number, laid), (4, refused.reply))
}

/// Time and client, as the stamp of a message.
fn stamp(page: &Page) -> Checked {
    let values = [("zero", 0), ("time", 0x0102_0304), ("client", 0x0506)];
    let laid = page.layout("Stamp")?.laid(&values)?;
    let bytes = [&[7], &laid[..], &[0]].concat();
    let stamp = 0x0102_0304 * 65_536 + 0x0506;
    let expected = Message::Read { stamp, register: 0 };
    same("stamp", Message::parse(&bytes), Some(expected))
}

/// The replies of boxes 1, 2 and 0: RETRY with this stamp, tentative or final.
fn replies(heard: &[(u64, bool)]) -> Vec<Counted> {
    let reply = |(box_number, (stamp, is_final)): (u8, &(u64, bool))| Counted {
        box_number,
        view: VIEW,
        result: PrepareResult::Retry(*stamp),
        is_final: *is_final,
    };
    [1, 2, 0].into_iter().zip(heard).map(reply).collect()
}

/// The word of such replies in a group of so many boxes.
fn word_of(n: u8, heard: &[(u64, bool)]) -> Checked<u64> {
    let bytes: Vec<u8> = replies(heard).iter().flat_map(Counted::bytes).collect();
    agreed::counted(n, &bytes)
}

const BOTH: [(u64, bool); 2] = [(RETRY, false), (RETRY, true)];

fn counted_reply(page: &Page) -> Checked {
    let layout = page.layout("Counted reply")?;
    let mut laid = Vec::new();
    for reply in replies(&BOTH) {
        let bytes = layout.laid(&[
            ("box", reply.box_number.into()),
            ("view", reply.view.into()),
            ("result", 4),
            ("retry stamp", RETRY),
            ("final", reply.is_final.into()),
        ])?;
        same("counted reply", Counted::parse(&bytes), Some(reply))?;
        laid.extend(bytes);
    }
    same(
        "slow RETRY",
        agreed::counted(3, &laid)?,
        RETRY << 16 | 0x1200,
    )
}

/// The struct as it stands in memory, with anything in its padding.
fn record(page: &Page) -> Checked {
    let layout = page.layout("Record in C")?;
    let mut laid = Vec::new();
    for reply in replies(&BOTH) {
        let values = [
            ("box", reply.box_number.into()),
            ("result", 4),
            ("is_final", reply.is_final.into()),
            ("padding", 0xee),
            ("view", reply.view.into()),
            ("retry", RETRY),
        ];
        let bytes = layout.laid_as(&values, little_endian)?;
        let expected = boundary::Record {
            box_number: reply.box_number,
            result: 4,
            is_final: reply.is_final.into(),
            view: reply.view,
            retry: RETRY,
        };
        same("record", agreed::records_of(&bytes)?, vec![expected])?;
        laid.extend(bytes);
    }
    let word = boundary::count_records(3, &agreed::records_of(&laid)?);
    same("slow RETRY", word, RETRY << 16 | 0x1200)
}

/// The part of a word that the page has at some bits: their first and their last, as `10 to 12`.
pub fn bits(page: &Page, heading: &str, name: &str, word: u64) -> Checked<u64> {
    let rows = page.section(heading)?.table("| bits | field | values |")?;
    let row = rows.iter().find(|row| row.get(1) == Some(&name));
    let cell = row.ok_or_else(|| format!("{} has no {}", heading, name))?[0];
    let (first, last) = first_and_last(cell)?;
    Ok(word >> first & (u64::MAX >> (63 - (last - first))))
}

fn first_and_last(cell: &str) -> Checked<(u32, u32)> {
    let wrong = || format!("{} are no bits", cell);
    let (first, last) = cell.split_once(" to ").ok_or_else(wrong)?;
    match (first.parse(), last.parse()) {
        (Ok(first), Ok(last)) if first <= last && last < 64 => Ok((first, last)),
        _ => Err(wrong()),
    }
}

/// That the bits of a word are all there, one after the other, and that its parts are these.
fn parts(page: &Page, heading: &str, word: u64, expected: &[(&str, u64)]) -> Checked {
    let lines = &page.section(heading)?.lines;
    let rows = page.section(heading)?.table("| bits | field | values |")?;
    same(
        "tables of bits",
        lines.iter().filter(|line| cells(line)[0] == "bits").count(),
        1,
    )?;
    let mut end = 0;
    for row in &rows {
        let (first, last) = first_and_last(row[0])?;
        same("the first bit", first, end)?;
        end = last + 1;
        let found = bits(page, heading, row[1], word)?;
        let value = expected.iter().find(|(name, _)| *name == row[1]);
        let value = value.ok_or_else(|| format!("{} of {}?", row[1], heading))?;
        same(row[1], found, value.1)?;
        let allowed = crate::sums::Set::of(row[2], &[])?;
        same("allowed", allowed.has(found), true)?;
    }
    same("the last bit", end, 64)
}

fn answer_of_the_count(page: &Page) -> Checked {
    let heard = [(RETRY, false); 3];
    let unequal = [(RETRY, true), (STAMP, true)];
    let said = |word: u64, number, kind, result, retry| {
        let expected = [
            ("number", number),
            ("kind", kind),
            ("result", result),
            ("zero", 0),
            ("retry stamp", retry),
        ];
        parts(page, "Answer of the count", word, &expected)
    };
    said(word_of(3, &heard[..1])?, 0, 0, 0, 0)?;
    said(word_of(3, &heard)?, 0, 1, 4, RETRY)?;
    said(word_of(3, &heard[..2])?, 0, 2, 4, RETRY)?;
    said(word_of(4, &heard)?, 3, 0, 0, 0)?;
    said(word_of(3, &unequal)?, 6, 0, 0, 0)
}

/// No rows, the most rows below which a stamp can lie, and a refusal for which none is sought.
fn answer_with_the_rows_compared(page: &Page) -> Checked {
    let said = |rows: Vec<samples::Row>, message: &[u8], number, compared| {
        let word = agreed::answered(&normal(VIEW, rows).image(), message)?.word;
        let expected = [("number", number), ("zero", 0), ("rows compared", compared)];
        parts(page, "Answer with the rows compared", word, &expected)
    };
    let full = samples::random::full_table(&mut samples::Dice::seeded(1), samples::MOST_ROWS);
    let lowest = samples::Row::of(1, Vec::new(), vec![access(6, 5)]);
    let held = samples::Row {
        prepare: 1,
        ..row()
    };
    said(vec![], &message::propose_prepare(&row()), 0, 0)?;
    said(full.rows, &message::propose_prepare(&lowest), 7, 10)?;
    said(vec![held], &message::change_view(0), 10, 0)
}

fn answer_of_valid(page: &Page) -> Checked {
    let image = table().image();
    let of = |number, length| [("number", number), ("zero", 0), ("length", length)];
    let heading = "Answer of valid";
    parts(
        page,
        heading,
        agreed::valid(&image)?,
        &of(0, image.len() as u64),
    )?;
    parts(page, heading, agreed::valid(&image[1..])?, &of(2, 0))?;
    let full = samples::random::full_table(&mut samples::Dice::seeded(1), samples::MOST_ROWS);
    parts(
        page,
        heading,
        agreed::valid(&full.image())?,
        &of(0, TABLE_BYTES as u64),
    )
}
