//! The second program behind a call that it has in another form.

use boundary::Record;
use reference::count::coded;
use reference::{decide, Counted, Number, PrepareResult};

/// Records counted: each is made into a reply of its own.
pub fn count_records(n: u8, records: &[Record]) -> u64 {
    let replies: Option<Vec<Counted>> = records.iter().map(counted).collect();
    let replies = replies.ok_or(Number::BadMessage);
    coded(replies.and_then(|replies| decide(n, &replies)))
}

fn counted(record: &Record) -> Option<Counted> {
    Some(Counted {
        box_number: record.box_number,
        view: record.view,
        result: PrepareResult::from_code(record.result, record.retry)?,
        is_final: match record.is_final {
            0 => false,
            1 => true,
            _ => return None,
        },
    })
}
