//! "The stamp search shall also return the rows it compared, equal to the steps of a written definition of halving"
//! (document 02, P7).

use crate::message::Message;
use crate::numbers::Number;
use crate::table::Table;

/// How many stamps of a rising list the search for one compares: of the rows left, the one with half as many before it,
/// rounded down, is compared; it has the stamp, or the search goes on behind it, for its stamp is lower, or before it,
/// for its stamp is greater; of no rows none is compared.
pub fn compared(rising: &[u64], sought: u64) -> usize {
    let (before, rest) = rising.split_at(rising.len() / 2);
    match rest {
        [] => 0,
        [middle, ..] if *middle == sought => 1,
        [middle, behind @ ..] if *middle < sought => 1 + compared(behind, sought),
        _ => 1 + compared(before, sought),
    }
}

/// "The answer to messages 1 to 4 passes this number on beside the reply, with 0 for refusals numbered 1 to 4 and 9."
/// The table is the one that the box held when the message came, also where a row is added.
pub fn compared_for(number: Number, held: &Table, message: &Message) -> usize {
    let stamps: Vec<u64> = held.rows.keys().copied().collect();
    match (number, stamp_sought(message)) {
        (Number::SmallBuffer | Number::BadTable | Number::BadMessage, _) => 0,
        (Number::Changing | Number::OtherView, _) => 0,
        (_, Some(stamp)) => compared(&stamps, stamp),
        (_, None) => 0,
    }
}

/// The stamp whose row a message needs: messages 5 and 6 name none, and message 7 walks all rows for a register.
fn stamp_sought(message: &Message) -> Option<u64> {
    match message {
        Message::ProposePrepare { stamp, .. }
        | Message::FinalisePrepare { stamp, .. }
        | Message::ProposeOutcome { stamp, .. }
        | Message::FinaliseOutcome { stamp, .. } => Some(*stamp),
        Message::ChangeView { .. } | Message::StartView { .. } | Message::Read { .. } => None,
    }
}
