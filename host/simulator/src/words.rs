//! A history in words, for a person to follow.

use crate::group::{Answered, Counted, Group};
use crate::play::Event;
use reference::{Body, Decision, HeldOutcome, HeldPrepare, Message, Outcome, PrepareResult, Table};

pub fn result_words(result: PrepareResult) -> String {
    match result {
        PrepareResult::Ok => "OK".to_string(),
        PrepareResult::Abort => "ABORT".to_string(),
        PrepareResult::Abstain => "ABSTAIN".to_string(),
        PrepareResult::Retry(stamp) => format!("RETRY {}", stamp),
    }
}

pub fn prepare_words(held: Option<HeldPrepare>) -> String {
    match held {
        None => "no result".to_string(),
        Some(HeldPrepare {
            result,
            is_final: false,
        }) => format!("tentative {}", result_words(result)),
        Some(HeldPrepare {
            result,
            is_final: true,
        }) => format!("final {}", result_words(result)),
    }
}

pub fn outcome_name(outcome: Outcome) -> &'static str {
    match outcome {
        Outcome::Commit => "commit",
        Outcome::Abort => "abort",
    }
}

pub fn outcome_words(held: Option<HeldOutcome>) -> String {
    match held {
        None => "no outcome".to_string(),
        Some(HeldOutcome {
            outcome,
            is_done: false,
        }) => format!("{} noted", outcome_name(outcome)),
        Some(HeldOutcome {
            outcome,
            is_done: true,
        }) => format!("{} done", outcome_name(outcome)),
    }
}

/// Boxes as "0 1 4".
pub fn boxes(numbers: &[usize]) -> String {
    let words: Vec<String> = numbers.iter().map(usize::to_string).collect();
    words.join(" ")
}

/// Every event in a line of its own, numbered from 1.
pub fn history(group: &Group, events: &[Event]) -> String {
    let lines = events.iter().enumerate();
    let lines =
        lines.map(|(place, event)| format!("{:4}. {}\n", place + 1, event_words(group, event)));
    lines.collect()
}

fn event_words(group: &Group, event: &Event) -> String {
    match event {
        Event::Sends(place) => {
            let sent = &group.sent[*place];
            format!("to box {}: {}", sent.to, message_words(&sent.message))
        }
        Event::Arrives(place) => arrival_words(group, &group.answers[*place]),
        Event::Counts(place) => count_words(group, &group.counted[*place]),
        Event::Declares(place) => {
            let declared = &group.declared[*place];
            let result = result_words(declared.result);
            format!(
                "declared: stamp {} {} in view {}",
                declared.stamp, result, declared.view
            )
        }
        Event::Merges {
            view,
            boxes: of,
            number,
        } => {
            format!(
                "merge for view {} of boxes {}: number {}",
                view,
                boxes(of),
                number
            )
        }
    }
}

fn message_words(message: &Message) -> String {
    match message {
        Message::ProposePrepare { stamp, body } => {
            format!("prepare stamp {} ({})", stamp, body_words(body))
        }
        Message::ProposeOutcome {
            stamp,
            outcome,
            body,
        } => {
            let (outcome, body) = (outcome_name(*outcome), body_words(body));
            format!("propose {} of stamp {} ({})", outcome, stamp, body)
        }
        Message::ChangeView { view } => format!("change to view {}", view),
        Message::StartView { view, image } => format!("start view {}{}", view, rows_words(image)),
        Message::Read { stamp, register } => {
            format!("read register {} at stamp {}", register, stamp)
        }
        finalises => finalising_words(finalises),
    }
}

/// Messages 2 and 4.
fn finalising_words(message: &Message) -> String {
    match message {
        Message::FinalisePrepare {
            stamp,
            view,
            result,
        } => {
            let result = result_words(*result);
            format!("finalise stamp {} {} in view {}", stamp, result, view)
        }
        Message::FinaliseOutcome {
            stamp,
            view,
            outcome,
        } => {
            let outcome = outcome_name(*outcome);
            format!("finish {} of stamp {} in view {}", outcome, stamp, view)
        }
        _ => String::new(),
    }
}

/// "; stamp 20 final OK, no outcome" for each row.
fn rows_words(table: &Table) -> String {
    let rows = table.rows.iter().map(|(stamp, row)| {
        let (prepare, outcome) = (prepare_words(row.prepare), outcome_words(row.outcome));
        format!("; stamp {} {}, {}", stamp, prepare, outcome)
    });
    rows.collect()
}

/// "reads 0 at 10, writes 1"
fn body_words(body: &Body) -> String {
    let reads = body
        .reads
        .iter()
        .map(|(register, version)| format!("reads {} at {}", register, version));
    let writes = body
        .writes
        .keys()
        .map(|register| format!("writes {}", register));
    reads.chain(writes).collect::<Vec<String>>().join(", ")
}

fn arrival_words(group: &Group, answered: &Answered) -> String {
    let message = message_words(&group.sent[answered.place].message);
    let reply = &answered.reply;
    let said = match (answered.number, reply.kind) {
        (0, 1 | 2) => {
            let held = HeldPrepare::from_byte(reply.state, reply.value);
            format!("{} in view {}", prepare_words(held.flatten()), reply.view)
        }
        (0, 3 | 4) => {
            let held = HeldOutcome::from_byte(reply.state);
            format!("{} in view {}", outcome_words(held.flatten()), reply.view)
        }
        (0, _) => format!("done, last normal view {}", reply.view),
        (refusal, _) => format!("refused with number {}", refusal),
    };
    format!("box {} hears: {} -> {}", answered.by, message, said)
}

fn count_words(group: &Group, counted: &Counted) -> String {
    let said = match counted.decision {
        Ok(Decision::Wait) => "wait".to_string(),
        Ok(Decision::Fast(result)) => format!("fast {}", result_words(result)),
        Ok(Decision::Slow(result)) => format!("slow {}", result_words(result)),
        Err(refusal) => format!("refused with number {}", refusal),
    };
    let by: Vec<usize> = counted
        .answers
        .iter()
        .map(|place| group.answers[*place].by)
        .collect();
    let stamp = counted.stamp;
    format!(
        "count of stamp {} in view {} over boxes {}: {}",
        stamp,
        counted.view,
        boxes(&by),
        said
    )
}
