//! What the second program has read, in the words of the page.

use reference::row::{HeldOutcome, HeldPrepare, Outcome, PrepareResult};
use reference::{Body, Counted, Decision, Message, Mode, Number, Reply, Row, Table};

/// Time and client; 0 for none.
pub fn stamp(stamp: u64) -> String {
    match stamp {
        0 => "0".to_string(),
        _ => format!("{}:{}", stamp / 65_536, stamp % 65_536),
    }
}

pub fn number(number: Number) -> String {
    let mut words = String::new();
    for letter in format!("{:?}", number).chars() {
        if letter.is_uppercase() && !words.is_empty() {
            words.push(' ');
        }
        words.extend(letter.to_lowercase());
    }
    words
}

pub fn result_name(result: PrepareResult) -> &'static str {
    match result {
        PrepareResult::Ok => "OK",
        PrepareResult::Abort => "ABORT",
        PrepareResult::Abstain => "ABSTAIN",
        PrepareResult::Retry(_) => "RETRY",
    }
}

/// With the stamp of RETRY.
pub fn result(result: PrepareResult) -> String {
    match result {
        PrepareResult::Retry(at) => format!("RETRY {}", stamp(at)),
        _ => result_name(result).to_string(),
    }
}

pub fn finality(is_final: bool) -> &'static str {
    match is_final {
        true => "final",
        false => "tentative",
    }
}

pub fn prepare_name(held: Option<HeldPrepare>) -> String {
    match held {
        None => "none".to_string(),
        Some(held) => format!("{} {}", finality(held.is_final), result_name(held.result)),
    }
}

/// With the stamp of RETRY.
fn prepare(held: Option<HeldPrepare>) -> String {
    match held {
        None => prepare_name(held),
        Some(held) => format!("{} {}", finality(held.is_final), result(held.result)),
    }
}

pub fn outcome(outcome: Outcome) -> &'static str {
    match outcome {
        Outcome::Commit => "commit",
        Outcome::Abort => "abort",
    }
}

pub fn outcome_name(held: Option<HeldOutcome>) -> String {
    match held {
        None => "none".to_string(),
        Some(held) if held.is_done => format!("{} done", outcome(held.outcome)),
        Some(held) => format!("{} noted", outcome(held.outcome)),
    }
}

fn body(body: &Body) -> String {
    let reads = body.reads.iter();
    let reads =
        reads.map(|(register, version)| format!("read {} at {}", register, stamp(*version)));
    let writes = body.writes.iter();
    let writes = writes.map(|(register, value)| format!("write {} = {}", register, value));
    let accesses: Vec<String> = reads.chain(writes).collect();
    accesses.join(", ")
}

fn row(at: u64, row: &Row) -> String {
    format!(
        "row: stamp {}, {}, prepare {}, outcome {}",
        stamp(at),
        body(&row.body),
        prepare(row.prepare),
        outcome_name(row.outcome)
    )
}

pub fn mode(mode: Mode) -> &'static str {
    match mode {
        Mode::Normal => "normal",
        Mode::Changing { .. } => "changing",
    }
}

/// A line for the header, behind a label, and a line for each row.
pub fn table(label: &str, table: &Table) -> Vec<String> {
    let promised = match table.mode {
        Mode::Normal => String::new(),
        Mode::Changing { promised } => format!("promised view {}, ", promised),
    };
    let header = format!(
        "{}: box {} of {}, {}, view {}, {}start rows {}",
        label,
        table.box_number,
        table.n,
        mode(table.mode),
        table.view,
        promised,
        table.start_rows
    );
    let rows = table.rows.iter().map(|(at, held)| row(*at, held));
    std::iter::once(header).chain(rows).collect()
}

pub fn kind(message: &Message) -> &'static str {
    match message {
        Message::ProposePrepare { .. } => "propose prepare",
        Message::FinalisePrepare { .. } => "finalise prepare",
        Message::ProposeOutcome { .. } => "propose outcome",
        Message::FinaliseOutcome { .. } => "finalise outcome",
        Message::ChangeView { .. } => "change view",
        Message::StartView { .. } => "start view",
        Message::Read { .. } => "read",
    }
}

/// A line for the message, and for message 6 the lines of its image.
pub fn message(message: &Message) -> Vec<String> {
    let said = match message {
        Message::ProposePrepare {
            stamp: at,
            body: it,
        } => {
            format!("stamp {}, {}", stamp(*at), body(it))
        }
        Message::FinalisePrepare {
            stamp: at,
            view,
            result: it,
        } => format!("stamp {}, view {}, {}", stamp(*at), view, result(*it)),
        Message::ProposeOutcome {
            stamp: at,
            outcome: it,
            body: whole,
        } => format!("stamp {}, {}, {}", stamp(*at), outcome(*it), body(whole)),
        Message::FinaliseOutcome {
            stamp: at,
            view,
            outcome: it,
        } => format!("stamp {}, view {}, {}", stamp(*at), view, outcome(*it)),
        Message::ChangeView { view } | Message::StartView { view, .. } => format!("view {}", view),
        Message::Read {
            stamp: at,
            register,
        } => format!("stamp {}, register {}", stamp(*at), register),
    };
    let first = format!("message {}, {}: {}", message.kind(), kind(message), said);
    let image = match message {
        Message::StartView { image, .. } => table("table", image),
        _ => Vec::new(),
    };
    std::iter::once(first).chain(image).collect()
}

/// A reply to a message of its kind. Of a prepare byte and a retry stamp the second program knows what they are.
pub fn reply(reply: &Reply) -> String {
    let about = match reply.kind {
        1 | 2 => {
            let held = HeldPrepare::from_byte(reply.state, reply.value).flatten();
            format!(", stamp {}, prepare {}", stamp(reply.stamp), prepare(held))
        }
        3 | 4 => {
            let held = HeldOutcome::from_byte(reply.state).flatten();
            format!(
                ", stamp {}, outcome {}",
                stamp(reply.stamp),
                outcome_name(held)
            )
        }
        5 => format!(", promised view {}", reply.stamp),
        7 => format!(", version {}, value {}", stamp(reply.stamp), reply.value),
        _ => String::new(),
    };
    let (kind, box_number, view) = (reply.kind, reply.box_number, reply.view);
    format!(
        "reply to message {}: box {}, view {}{}",
        kind, box_number, view, about
    )
}

/// A reply that is counted, behind a label.
pub fn counted(label: &str, reply: &Counted) -> String {
    format!(
        "{}: box {}, view {}, {}, {}",
        label,
        reply.box_number,
        reply.view,
        result(reply.result),
        finality(reply.is_final)
    )
}

pub fn decision_kind(decision: Decision) -> &'static str {
    match decision {
        Decision::Wait => "wait",
        Decision::Fast(_) => "fast",
        Decision::Slow(_) => "slow",
    }
}

pub fn decision(decided: Result<Decision, Number>) -> String {
    match decided {
        Err(refusal) => number(refusal),
        Ok(Decision::Wait) => decision_kind(Decision::Wait).to_string(),
        Ok(decision @ (Decision::Fast(it) | Decision::Slow(it))) => {
            format!("{} {}", decision_kind(decision), result(it))
        }
    }
}
