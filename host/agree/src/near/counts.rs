//! "The coordinator's count": 3, 6, and each turn of fast, wait and slow.

use super::named;
use crate::case::Case;
use crate::cases::Named;
use samples::{Record, GREATEST_STAMP};

/// A result's code and its retry stamp.
type Said = (u8, u64);

const OK: Said = (1, 0);
const ABORT: Said = (2, 0);
const ABSTAIN: Said = (3, 0);
const RETRY: Said = (4, 20);
const LATER: Said = (4, 21);

pub fn all() -> Vec<Named> {
    let mut cases = bad_replies();
    cases.extend(counts_of_the_group());
    cases.extend(finals());
    cases.extend(turns());
    cases
}

fn tentative(results: &[Said]) -> Vec<Record> {
    let reply = |(place, result): (usize, &Said)| Record {
        box_number: place as u8,
        view: 4,
        result: *result,
        is_final: 0,
    };
    results.iter().enumerate().map(reply).collect()
}

/// Replies of which those of some boxes are final.
fn with_finals(results: &[Said], finals: &[usize]) -> Vec<Record> {
    let mut replies = tentative(results);
    finals.iter().for_each(|place| replies[*place].is_final = 1);
    replies
}

fn counted(name: &str, n: u8, replies: Vec<Record>) -> Named {
    named(format!("count of {}: {}", n, name), Case::count(n, replies))
}

/// "Bad n, a box outside the group or twice, unequal views or a bad result: 3."
fn bad_replies() -> Vec<Named> {
    let with = |name: &str, change: fn(&mut Record)| {
        let mut replies = tentative(&[OK, OK, OK]);
        change(&mut replies[2]);
        counted(name, 5, replies)
    };
    let mut cases = vec![
        with("the last box", |reply| reply.box_number = 4),
        with("a box outside", |reply| reply.box_number = 5),
        with("the box before twice", |reply| reply.box_number = 1),
        with("the first box twice", |reply| reply.box_number = 0),
        with("the view before", |reply| reply.view -= 1),
        with("the view behind", |reply| reply.view += 1),
        with("RETRY 0", |reply| reply.result = (4, 0)),
        with("RETRY 1", |reply| reply.result = (4, 1)),
        with("the greatest RETRY", |reply| {
            reply.result = (4, GREATEST_STAMP)
        }),
        with("RETRY 2^48", |reply| reply.result = (4, GREATEST_STAMP + 1)),
    ];
    let contradicting = with_finals(&[OK, ABORT, (4, 0)], &[0, 1]);
    cases.push(counted("a bad result and unequal finals", 5, contradicting));
    cases.extend((0..10).map(|n| counted("one reply", n, tentative(&[OK]))));
    cases
}

/// Each number of replies that agree, with no others and with all others: the fast count, f+1 and what is below them.
fn counts_of_the_group() -> Vec<Named> {
    let agreeing = |n: u8| (0..=n).map(move |count| (n, usize::from(count)));
    let groups = [3, 5, 7].into_iter().flat_map(agreeing);
    groups.flat_map(with_ok).collect()
}

fn with_ok((n, count): (u8, usize)) -> [Named; 2] {
    let mut results = vec![ABSTAIN; usize::from(n)];
    results[..count].fill(OK);
    let (name, among) = (
        format!("{} OK", count),
        format!("{} OK among ABSTAIN", count),
    );
    [
        counted(&name, n, tentative(&results[..count])),
        counted(&among, n, tentative(&results)),
    ]
}

/// Replies in a group of five, and the places of the final ones among them.
const FINALS: [(&str, &[Said], &[usize]); 15] = [
    ("equal finals", &[OK, OK, ABORT], &[0, 1]),
    ("unequal finals", &[OK, OK, ABORT], &[0, 2]),
    ("unequal finals, too few", &[OK, ABORT], &[0, 1]),
    ("finals with two retry stamps", &[RETRY, LATER, OK], &[0, 1]),
    ("a final against others", &[OK, ABORT, ABORT], &[0]),
    (
        "a fast count beside another final",
        &[OK, OK, OK, OK, ABORT],
        &[4],
    ),
    (
        "a fast count beside another reply",
        &[OK, OK, OK, OK, ABORT],
        &[],
    ),
    ("a fast count and its final", &[OK, OK, OK, OK, ABORT], &[0]),
    (
        "a fast count of finals",
        &[OK, OK, OK, OK, ABORT],
        &[0, 1, 2, 3],
    ),
    (
        "three beside another final",
        &[OK, OK, OK, RETRY, ABORT],
        &[4],
    ),
    (
        "a fast RETRY beside another",
        &[RETRY, RETRY, RETRY, RETRY, LATER],
        &[4],
    ),
    ("one final alone", &[OK], &[0]),
    ("two replies, one final", &[OK, ABORT], &[0]),
    ("a final beside ABORT", &[ABORT, ABSTAIN, OK], &[1]),
    ("a final RETRY beside f+1 OK", &[OK, OK, OK, RETRY], &[3]),
];

/// "Two unequal finals, or a fast count for a result other than a final one: 6."
fn finals() -> Vec<Named> {
    let of = |(name, results, finals): (&str, &[Said], &[usize])| {
        counted(name, 5, with_finals(results, finals))
    };
    FINALS.into_iter().map(of).collect()
}

/// "wait if fewer than f+1 replies; slow with the final result if there is one; slow ABORT if any is ABORT; slow OK if f+1
/// are OK; slow RETRY with the greatest stamp if any; slow ABSTAIN."
fn turns() -> Vec<Named> {
    let of = |name: &str, results: &[Said]| counted(name, 5, tentative(results));
    vec![
        of("f+1 OK and ABORT", &[OK, OK, OK, ABORT]),
        of("f+1 OK and RETRY", &[OK, RETRY, OK, OK]),
        of("f+1 OK and ABSTAIN", &[OK, ABSTAIN, OK, OK]),
        of("f OK and RETRY", &[OK, OK, RETRY]),
        of("f OK and ABSTAIN", &[OK, ABSTAIN, OK]),
        of("ABORT alone among others", &[ABSTAIN, RETRY, ABORT]),
        of("the greater RETRY first", &[LATER, RETRY, ABSTAIN]),
        of("the greater RETRY last", &[ABSTAIN, RETRY, LATER]),
        of("ABSTAIN and RETRY", &[ABSTAIN, ABSTAIN, RETRY]),
        of("ABSTAIN alone", &[ABSTAIN, ABSTAIN, ABSTAIN]),
        of("a fast ABSTAIN", &[ABSTAIN, ABSTAIN, ABSTAIN, ABSTAIN]),
        of("a fast ABORT", &[ABORT, ABORT, ABORT, ABORT]),
        of("a fast RETRY", &[RETRY, RETRY, RETRY, RETRY]),
        of("RETRY with two stamps", &[RETRY, RETRY, RETRY, LATER]),
        of("a fast OK and ABORT", &[OK, OK, ABORT, OK, OK]),
    ]
}
