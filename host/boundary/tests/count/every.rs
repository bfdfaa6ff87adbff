//! Every list of up to four replies over small alphabets, with n from 0 to 9.
//!
//! What decides about a list are its boxes, views, results and final bytes. One alphabet of all that matters in them would
//! make thousands of millions of lists, so there are five, in each of which some go through all their combinations:
//!
//! - a few of each together: four boxes, two views, OK, RETRY with two stamps, and a final OK;
//! - boxes and views, with a tentative result and a final one: which box is outside or twice and which view is another,
//!   whatever place it has;
//! - boxes and results, in one view: each answer by the results alone, whichever boxes gave them;
//! - results and final bytes, good and bad, of different boxes in one view: each answer that four replies lead to;
//! - all of them at once, but for ABSTAIN and for what breaks a rule in a result.
//!
//! For 3, 5 and 7 the last is in lists of up to three, the others are in lists of up to four. Another n is bad whatever the
//! replies are, so for these only the second and the fourth are in lists of up to four, the first is in lists of up to
//! three, the last in lists of up to two, and the third is left out. Lists of more replies are in `in_order` and in the
//! random parts.

use crate::lent::Lent;
use samples::{Record, GREATEST_STAMP};

/// Results as a reply has them, each a code and a retry stamp.
pub const OK: (u8, u64) = (1, 0);
pub const ABORT: (u8, u64) = (2, 0);
pub const ABSTAIN: (u8, u64) = (3, 0);
/// RETRY with the least stamp and with the greatest.
pub const RETRY: (u8, u64) = (4, 1);
pub const RETRY_LATER: (u8, u64) = (4, GREATEST_STAMP);

pub const VIEW: u32 = 6;

/// Every list of so many letters.
pub fn every_list<T: Copy>(letters: &[T], length: usize, each: &mut impl FnMut(&[T])) {
    let mut places = vec![0; length];
    let mut list = vec![letters[0]; length];
    loop {
        each(&list);
        // As a number is raised: the last place that is not at its end, and all behind it begin again.
        let raised = (0..length).rfind(|place| places[*place] + 1 < letters.len());
        let raised = match raised {
            Some(place) => place,
            None => return,
        };
        places[raised] += 1;
        places[raised + 1..].fill(0);
        for place in raised..length {
            list[place] = letters[places[place]];
        }
    }
}

/// How many lists of up to so many letters there are.
pub fn lists(letters: usize, longest: u32) -> u64 {
    (0..=longest).map(|length| letters.pow(length) as u64).sum()
}

/// The first three boxes, the last one of the group and the first outside of it: four different ones of the group, or all
/// three, any of them twice, and one outside.
fn boxes(n: u8) -> Vec<u8> {
    let mut boxes = vec![0, 1, 2, n.wrapping_sub(1), n];
    boxes.sort_unstable();
    boxes.dedup();
    boxes
}

/// Each box in each view with each result, final or not.
fn letters(boxes: &[u8], views: &[u32], results: &[((u8, u64), u8)]) -> Vec<Record> {
    let mut letters = Vec::new();
    for box_number in boxes.iter().copied() {
        for view in views.iter().copied() {
            letters.extend(results.iter().map(|(result, is_final)| Record {
                box_number,
                view,
                result: *result,
                is_final: *is_final,
            }));
        }
    }
    letters
}

/// Asks for every list of up to so many letters, as the records that it stands for, and has counted them all.
fn ask_all<T: Copy>(
    lent: &mut Lent,
    n: u8,
    letters: &[T],
    longest: u32,
    records: fn(&[T]) -> Vec<Record>,
) {
    let before = lent.shares.calls();
    for length in 0..=longest as usize {
        every_list(letters, length, &mut |list| {
            lent.ask_for(n, &records(list));
        });
    }
    let asked = lent.shares.calls() - before;
    assert_eq!(asked, lists(letters.len(), longest));
}

/// The first four boxes: all of them are of a group of 5 or 7, and the last is outside of 3.
fn ask_few_of_each(lent: &mut Lent, n: u8, longest: u32) {
    let results = [(OK, 0), (RETRY, 0), (RETRY_LATER, 0), (OK, 1)];
    let letters = letters(&[0, 1, 2, 3], &[VIEW, VIEW + 1], &results);
    ask_all(lent, n, &letters, longest, <[Record]>::to_vec);
}

/// For one group, so that each may be asked for by a thread of its own.
pub fn few_of_each<const N: u8>(lent: &mut Lent) {
    ask_few_of_each(lent, N, 4);
    assert_eq!(lent.shares.calls(), 1_082_401);
}

pub fn few_of_each_for_a_bad_n(lent: &mut Lent) {
    let bad = [0, 1, 2, 4, 6, 8, 9];
    bad.iter().for_each(|n| ask_few_of_each(lent, *n, 3));
    assert_eq!(lent.shares.calls(), 7 * 33_825);
}

pub fn boxes_and_views(lent: &mut Lent) {
    for n in 0..=9 {
        let results = [(OK, 0), (ABORT, 1)];
        let letters = letters(&boxes(n), &[VIEW, VIEW + 1], &results);
        ask_all(lent, n, &letters, 4, <[Record]>::to_vec);
    }
}

pub fn boxes_and_results(lent: &mut Lent) {
    for n in [3, 5, 7] {
        let tentative = [OK, ABORT, RETRY, RETRY_LATER].map(|result| (result, 0));
        let finals = [OK, RETRY].map(|result| (result, 1));
        let results = [&tentative[..], &finals].concat();
        let letters = letters(&boxes(n), &[VIEW], &results);
        ask_all(lent, n, &letters, 4, <[Record]>::to_vec);
    }
}

/// Every result, tentative and final, then every way to break a rule once: a code outside 1 to 4, a stamp for another
/// result than RETRY, none or too great a one for RETRY, and a final byte above 1.
pub fn results(lent: &mut Lent) {
    let good = [OK, ABORT, ABSTAIN, RETRY, RETRY_LATER];
    let good = good.iter().flat_map(|result| [(*result, 0), (*result, 1)]);
    let bad = [(0, 0), (5, 0), (1, 1), (4, 0), (4, GREATEST_STAMP + 1)];
    let bad = bad.iter().map(|result| (*result, 0)).chain([(OK, 2)]);
    let letters: Vec<((u8, u64), u8)> = good.chain(bad).collect();
    for n in 0..=9 {
        ask_all(lent, n, &letters, 4, of_boxes_in_order);
    }
}

/// The replies of boxes 0, 1, 2 and so on with these results, final or not.
pub fn of_boxes_in_order(results: &[((u8, u64), u8)]) -> Vec<Record> {
    let record = |(box_number, (result, is_final)): (u8, &((u8, u64), u8))| Record {
        box_number,
        view: VIEW,
        result: *result,
        is_final: *is_final,
    };
    (0..).zip(results).map(record).collect()
}

pub fn all_at_once(lent: &mut Lent) {
    let results = [OK, ABORT, RETRY, RETRY_LATER];
    let results = results.map(|result| [(result, 0), (result, 1)]).concat();
    for n in 0..=9 {
        let longest = if matches!(n, 3 | 5 | 7) { 3 } else { 2 };
        let letters = letters(&boxes(n), &[VIEW, VIEW + 1], &results);
        ask_all(lent, n, &letters, longest, <[Record]>::to_vec);
    }
}
