//! Cases written as statements about the definitions.

use crate::case::{Case, WhoChecks, SMALL};
use crate::plain::Sent;
use reference::{Decision, Model, Number, PrepareResult, VALLEY};
use samples::{Access, Record, Row, Table};

/// The model of the cases, and that of document 01 as the second program has it.
pub fn models() -> String {
    format!(
        "\nabbrev small : Model\nsmall = {}\n\nthe_model : valley ≡ {}\nthe_model = refl -- the model of document 01\n",
        model(SMALL),
        model(VALLEY),
    )
}

fn model(model: Model) -> String {
    format!(
        "record {{ row_limit = {}; least_buffer = {} }}",
        model.rows, model.buffer
    )
}

pub fn statement(case: &Case) -> String {
    match case {
        Case::Answer(held, sent, answer) => answered(held, sent, answer),
        Case::Merge(view, tables, result) => merged(*view, tables, result),
        Case::Count(n, replies, decision) => {
            let heard = list(replies.iter().map(heard));
            format!("counted {} {} ≡ {}", n, heard, counted(decision))
        }
        Case::Check(who, rows, asked, result) => checked(*who, rows, asked, *result),
        Case::Image(image, good) => format!("table_by_rule small {} ≡ {}", table(image), good),
        Case::Fresh(n, box_number, told) => fresh(*n, *box_number, told),
        Case::Buffers(length, small, reply, reply_small) => format!(
            "(too_small valley {} ≡ {}) × (reply_too_small {} ≡ {})",
            length, small, reply, reply_small
        ),
        Case::Applying(numbers, told) => {
            let given = list(numbers.iter().map(|k| format!("({}, true)", name(*k))));
            format!("number {} ≡ {}", given, told.code())
        }
        Case::Steps(stamps, sought, told) => {
            let stamps = list(stamps.iter().map(u64::to_string));
            format!("compares {} {} {}", stamps, sought, told)
        }
    }
}

/// Both sides of the statement compute to the same.
pub fn proof(case: &Case) -> &'static str {
    match case {
        Case::Merge(..) | Case::Buffers(..) | Case::Fresh(_, _, Some(_)) => "(refl, refl)",
        _ => "refl",
    }
}

fn answered(held: &Table, sent: &Sent, answer: &Result<(Table, Vec<u8>), Number>) -> String {
    let asked = format!("{} {}", table(held), message(sent));
    match answer {
        Ok((after, reply)) => format!("answers {} {} {}", asked, 0, done(after, reply)),
        Err(refusal) => format!("refuses {} {}", asked, refusal.code()),
    }
}

/// "number 0, kind, box, state byte [..], last normal view after the call 4, stamp 8, value 8"
fn done(after: &Table, reply: &[u8]) -> String {
    let field = |from: usize, to: usize| {
        let bytes = reply[from..to].iter();
        bytes.fold(0, |number: u64, byte| number << 8 | u64::from(*byte))
    };
    let fields = [(1, 2), (2, 3), (3, 4), (4, 8), (8, 16), (16, 24)];
    let fields = fields.map(|(from, to)| field(from, to).to_string());
    format!("{} {}", table(after), fields.join(" "))
}

/// The number and the table of a merge; a refused one has none.
fn merged(view: u32, tables: &[Table], result: &Result<Table, Number>) -> String {
    let tables = list(tables.iter().map(table));
    let told = match result {
        Ok(merged) => format!("0 (some {})", table(merged)),
        Err(number) => format!("{} none", number.code()),
    };
    format!("merges {} {} {}", view, tables, told)
}

/// The check by the name of its role: what boxes check by is said once, in the definitions.
fn checked(who: WhoChecks, rows: &[Row], asked: &Row, result: PrepareResult) -> String {
    let check = match who {
        WhoChecks::ABox => "proposal_check",
        WhoChecks::TheMerge => "check",
    };
    let rows = list(rows.iter().map(row));
    let told = result_of(result.code(), result.retry_stamp());
    format!(
        "{} {} {} {} ≡ {}",
        check,
        rows,
        asked.stamp,
        body(asked),
        told
    )
}

fn fresh(n: u8, box_number: u8, told: &Option<Table>) -> String {
    let bad = format!("bad_group {} {} ≡ {}", n, box_number, told.is_none());
    match told {
        None => bad,
        Some(fresh) => format!(
            "({}) × (fresh_table {} {} ≡ {})",
            bad,
            n,
            box_number,
            table(fresh)
        ),
    }
}

fn list(items: impl Iterator<Item = String>) -> String {
    let chain: String = items.map(|item| item + " ∷ ").collect();
    format!("({}[])", chain)
}

fn table(table: &Table) -> String {
    format!(
        "(table {} {} {} {} {} {} {})",
        table.box_number,
        table.n,
        table.mode,
        table.view,
        table.promised,
        table.start_rows,
        list(table.rows.iter().map(row))
    )
}

fn row(row: &Row) -> String {
    format!(
        "row {} {} {} {}",
        row.stamp,
        body(row),
        prepare(row.prepare, row.retry),
        outcome(row.outcome)
    )
}

fn body(row: &Row) -> String {
    format!("(body {} {})", accesses(&row.reads), accesses(&row.writes))
}

fn accesses(accesses: &[Access]) -> String {
    let access = |access: &Access| format!("an {} {}", access.register, access.number);
    list(accesses.iter().map(access))
}

/// "OK, ABORT, ABSTAIN, RETRY", from 1
fn result_of(code: u8, retry: u64) -> String {
    match code {
        1 => "OK".to_string(),
        2 => "ABORT".to_string(),
        3 => "ABSTAIN".to_string(),
        4 => format!("(RETRY {})", retry),
        _ => panic!("the definitions have no result {}", code),
    }
}

fn prepare(byte: u8, retry: u64) -> String {
    match byte {
        0 => "no_prepare".to_string(),
        1..=4 => format!("(tentative {})", result_of(byte, retry)),
        _ => format!("(final {})", result_of(byte - 4, retry)),
    }
}

fn verdict(code: u8) -> &'static str {
    ["commit", "abort"][usize::from(code) - 1]
}

fn outcome(byte: u8) -> String {
    match byte {
        0 => "no_outcome".to_string(),
        1 | 2 => format!("(noted {})", verdict(byte)),
        _ => format!("(done {})", verdict(byte - 2)),
    }
}

fn message(sent: &Sent) -> String {
    let text = match sent {
        Sent::ProposePrepare(asked) => format!("propose_prepare {} {}", asked.stamp, body(asked)),
        Sent::FinalisePrepare(stamp, view, (code, retry)) => {
            let result = result_of(*code, *retry);
            format!("finalise_prepare {} {} {}", stamp, view, result)
        }
        Sent::ProposeOutcome(asked, outcome) => {
            let verdict = verdict(*outcome);
            format!(
                "propose_outcome {} {} {}",
                asked.stamp,
                verdict,
                body(asked)
            )
        }
        Sent::FinaliseOutcome(stamp, view, outcome) => {
            format!("finalise_outcome {} {} {}", stamp, view, verdict(*outcome))
        }
        Sent::ChangeView(view) => format!("change_view {}", view),
        Sent::StartView(view, image) => format!("start_view {} {}", view, table(image)),
        Sent::Read(stamp, register) => format!("read_register {} {}", stamp, register),
    };
    format!("({})", text)
}

fn heard(reply: &Record) -> String {
    let (code, retry) = reply.result;
    format!(
        "heard {} {} {} {}",
        reply.box_number,
        reply.view,
        result_of(code, retry),
        reply.is_final == 1
    )
}

fn counted(decision: &Result<Decision, Number>) -> String {
    let of = |result: &PrepareResult| result_of(result.code(), result.retry_stamp());
    match decision {
        Ok(Decision::Wait) => "wait".to_string(),
        Ok(Decision::Fast(result)) => format!("fast {}", of(result)),
        Ok(Decision::Slow(result)) => format!("slow {}", of(result)),
        Err(number) => format!("Counted.refused {}", number.code()),
    }
}

/// The name that the definitions have for a number.
fn name(number: Number) -> &'static str {
    match number {
        Number::Done => panic!("done is no circumstance"),
        Number::SmallBuffer => "small_buffer",
        Number::BadTable => "bad_table",
        Number::BadMessage => "bad_message",
        Number::Changing => "changing",
        Number::OtherBody => "other_body",
        Number::Contradiction => "contradiction",
        Number::Full => "full",
        Number::Unknown => "unknown",
        Number::OtherView => "other_view",
        Number::OldView => "old_view",
        Number::WrongTables => "wrong_tables",
    }
}
