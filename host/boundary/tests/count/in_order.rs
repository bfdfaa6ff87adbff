//! Replies of boxes 0, 1, 2 and so on in one view, with every list of results, up to as many as the largest group has boxes:
//! so the fast count of each result is reached and just missed. Up to six replies go through all of `ALL`, so that every
//! contradiction and every slow answer of whole groups of 3 and 5 is met. Seven go through `FEWER`, in which only OK and one
//! RETRY are final: a whole group of 7 with another final is in the random parts alone.

use crate::every::{every_list, lists, of_boxes_in_order};
use crate::every::{ABORT, ABSTAIN, OK, RETRY, RETRY_LATER};
use crate::lent::Lent;
use samples::replies::laid;

/// Each result tentative, then each of them final.
const ALL: [((u8, u64), u8); 10] = [
    (OK, 0),
    (ABORT, 0),
    (ABSTAIN, 0),
    (RETRY, 0),
    (RETRY_LATER, 0),
    (OK, 1),
    (ABORT, 1),
    (ABSTAIN, 1),
    (RETRY, 1),
    (RETRY_LATER, 1),
];

/// Each result tentative, and two of them final: enough for a fast count beside an equal final, beside another one, and
/// beside both.
const FEWER: [((u8, u64), u8); 7] = [ALL[0], ALL[1], ALL[2], ALL[3], ALL[4], ALL[5], ALL[8]];

/// Asks for every list of so many results, and backwards too.
fn ask_all(lent: &mut Lent, n: u8, letters: &[((u8, u64), u8)], length: usize) {
    every_list(letters, length, &mut |results| {
        let mut records = of_boxes_in_order(results);
        let answer = lent.ask_for(n, &records);
        records.reverse();
        lent.assert_counted(n, &laid(&records), &[], answer);
    });
}

pub fn up_to_five(lent: &mut Lent) {
    for n in [3, 5, 7] {
        (0..=5).for_each(|length| ask_all(lent, n, &ALL, length));
    }
    assert_eq!(lent.shares.calls(), 3 * lists(ALL.len(), 5));
}

pub fn six(lent: &mut Lent) {
    ask_all(lent, 7, &ALL, 6);
    assert_eq!(lent.shares.calls(), 1_000_000);
}

pub fn seven(lent: &mut Lent) {
    ask_all(lent, 7, &FEWER, 7);
    assert_eq!(lent.shares.calls(), 823_543);
}
