//! How a merge settles each stamp: by a final result, agreed, open, by its outcome or by a check, and in which order.

use super::merges::{gathered, merged, older};
use super::{holding, lonely, transaction};
use crate::cases::Named;
use samples::{Row, Table};

pub fn all() -> Vec<Named> {
    let mut cases = agreement_counts();
    cases.extend(states());
    cases.extend(finals());
    cases.extend(used_tables());
    cases.extend(checks());
    cases.extend(orders());
    cases.extend(turns());
    cases.extend(retry_stamps());
    cases.extend(under_later_entries());
    cases
}

/// The tables of a quorum, of which so many hold the row.
fn in_tables(n: u8, count: usize, row: &Row) -> Vec<Table> {
    let quorum = usize::from(n) / 2 + 1;
    let mut rows = vec![vec![row.clone()]; count];
    rows.resize(quorum, Vec::new());
    gathered(n, rows)
}

/// n, and in how many tables of a quorum a result stands.
const COUNTS: [(u8, usize); 9] = [
    (3, 1),
    (3, 2),
    (5, 1),
    (5, 2),
    (5, 3),
    (7, 1),
    (7, 2),
    (7, 3),
    (7, 4),
];

/// "a tentative result found in at least the agreement count of tables": ABSTAIN stays if agreed, and is checked if open.
fn agreement_counts() -> Vec<Named> {
    let abstain = |(n, count)| {
        let name = format!("ABSTAIN in {} tables of a quorum of {}", count, n);
        merged(&name, in_tables(n, count, &lonely(9, 3, 0)))
    };
    let mut cases: Vec<Named> = COUNTS.into_iter().map(abstain).collect();
    let mut retries = in_tables(3, 2, &lonely(9, 4, 0));
    cases.push(merged("RETRY twice with one stamp", retries.clone()));
    retries[1].rows[0].retry += 1;
    cases.push(merged("RETRY with two stamps", retries));
    // The first result that is met need not be the agreed one.
    let mut apart = in_tables(5, 3, &lonely(9, 3, 0));
    apart[0].rows[0].prepare = 2;
    cases.push(merged("agreed behind another result", apart));
    cases
}

/// "Agreed and not OK stays. Agreed OK with an outcome stays OK. .. Open with commit is OK, with abort ABORT, otherwise
/// checked." Each result with each outcome.
fn states() -> Vec<Named> {
    let all = (1..=4).flat_map(|prepare| (0..=4).map(move |outcome| (prepare, outcome)));
    all.flat_map(state)
        .chain((0..=4).flat_map(outcome))
        .collect()
}

/// A tentative result in two tables of three, so that it is agreed, and in one, so that it is open; the outcome is in the last.
fn state((prepare, outcome): (u8, u8)) -> [Named; 2] {
    let tables = |count| {
        let mut tables = in_tables(5, count, &lonely(9, prepare, 0));
        let last = [lonely(9, 0, outcome)].into_iter();
        tables[2].rows = last.filter(|row| row.outcome > 0).collect();
        tables
    };
    let name = format!("{} with outcome {}", prepare, outcome);
    [
        merged(&format!("agreed {}", name), tables(2)),
        merged(&format!("open {}", name), tables(1)),
    ]
}

/// An outcome beside an open result in one row, and in a row without a result.
fn outcome(outcome: u8) -> Vec<Named> {
    let beside = in_tables(3, 1, &lonely(9, 3, outcome));
    let alone = in_tables(3, usize::from(outcome > 0), &lonely(9, 0, outcome));
    vec![
        merged(
            &format!("outcome {} beside an open result", outcome),
            beside,
        ),
        merged(&format!("outcome {} alone", outcome), alone),
    ]
}

/// "a final result stays", against an outcome and against what is agreed.
fn finals() -> Vec<Named> {
    let all = (5..=8).flat_map(|prepare| [0, 1, 4].map(|outcome| (prepare, outcome)));
    let with_outcome = |(prepare, outcome)| {
        let name = format!("final {} with outcome {}", prepare, outcome);
        merged(&name, in_tables(3, 1, &lonely(9, prepare, outcome)))
    };
    let against_agreed = |prepare| {
        let mut tables = in_tables(5, 3, &lonely(9, 1, 0));
        tables[2].rows = vec![lonely(9, prepare, 0)];
        merged(&format!("final {} against an agreed OK", prepare), tables)
    };
    let cases = all.map(with_outcome);
    cases.chain((5..=8).map(against_agreed)).collect()
}

/// "only those of the greatest last normal view are used"
fn used_tables() -> Vec<Named> {
    let first = vec![lonely(3, 3, 0), lonely(9, 3, 0)];
    let second = vec![lonely(1, 5, 0), lonely(9, 3, 0), lonely(12, 0, 1)];
    let two = gathered(3, vec![first, second]);
    let mut three = in_tables(5, 3, &lonely(9, 6, 1));
    three[2].rows = vec![lonely(9, 5, 0)];
    vec![
        merged("both tables of one view", two.clone()),
        merged("the first table of an older view", older(0, two.clone())),
        merged("the last table of an older view", older(1, two)),
        merged("two tables of an older view", older(0, older(1, three))),
        merged("no rows", gathered(7, vec![Vec::new(); 4])),
    ]
}

const K: u8 = 5;

fn reader(stamp: u64, prepare: u8, outcome: u8) -> Row {
    holding(transaction(stamp, &[(K, 0)], &[]), prepare, outcome)
}

fn writer(stamp: u64, prepare: u8, outcome: u8) -> Row {
    holding(transaction(stamp, &[], &[(K, stamp)]), prepare, outcome)
}

/// Prepare and outcome of a row that a check may meet.
const STATES: [(u8, u8); 12] = [
    (5, 0),
    (5, 1),
    (5, 2),
    (5, 4),
    (0, 1),
    (0, 3),
    (0, 2),
    (6, 0),
    (6, 1),
    (1, 2),
    (2, 1),
    (3, 0),
];

/// What an agreed OK meets in its check: a reader at 20 beside a writer at 10, and the other way round. M11 is among them.
fn checks() -> Vec<Named> {
    let beside = |agreed: Row, other: Row| {
        gathered(5, vec![vec![agreed.clone()], vec![agreed], vec![other]])
    };
    let of = |(prepare, outcome)| {
        let name = format!("prepare {} and outcome {}", prepare, outcome);
        let read = beside(reader(20, 1, 0), writer(10, prepare, outcome));
        let written = beside(writer(10, 1, 0), reader(20, prepare, outcome));
        [
            merged(&format!("agreed reader beside {}", name), read),
            merged(&format!("agreed writer beside {}", name), written),
        ]
    };
    STATES.into_iter().flat_map(of).collect()
}

/// "then agreed rows in rising stamp order, then open rows in rising order": two rows that clash, each of which stands in so
/// many of the four tables of seven boxes; three of them agree.
fn orders() -> Vec<Named> {
    let (early, late) = (writer(10, 1, 0), reader(20, 1, 0));
    let (abstain, ok, commit) = (reader(20, 3, 0), reader(20, 5, 0), reader(20, 0, 1));
    let committed = writer(10, 0, 1);
    let cases = [
        ("both agreed", &early, 3, &late, 3),
        ("both open", &early, 2, &late, 2),
        ("agreed before the open one", &early, 3, &late, 2),
        ("agreed behind the open one", &early, 2, &late, 3),
        (
            "an agreed ABSTAIN behind the open one",
            &early,
            2,
            &abstain,
            3,
        ),
        ("a final OK behind the open one", &early, 2, &ok, 1),
        ("a commit behind the open one", &early, 2, &commit, 1),
        ("a commit before the open one", &committed, 1, &late, 2),
    ];
    let of = |(name, first, firsts, second, seconds): (&str, &Row, usize, &Row, usize)| {
        let held = |place| {
            let early = [first.clone()].into_iter().filter(move |_| place < firsts);
            let late = [second.clone()]
                .into_iter()
                .filter(move |_| place + seconds >= 4);
            early.chain(late).collect()
        };
        merged(name, gathered(7, (0..4).map(held).collect()))
    };
    cases.into_iter().map(of).collect()
}

/// Chains in which the turn of one check decides the next: the first clashes with the second, and the second with the third.
fn turns() -> Vec<Named> {
    let chain = [
        transaction(10, &[], &[(1, 1)]),
        transaction(20, &[(1, 0)], &[(2, 1)]),
        transaction(30, &[(2, 0)], &[]),
    ];
    let all: Vec<Row> = chain.into_iter().map(|row| holding(row, 1, 0)).collect();
    let ends = vec![all[0].clone(), all[2].clone()];
    vec![
        merged(
            "a chain of agreed rows",
            gathered(3, vec![all.clone(), all.clone()]),
        ),
        merged(
            "a chain of open rows",
            gathered(3, vec![all.clone(), Vec::new()]),
        ),
        merged(
            "a chain with an open row in it",
            gathered(3, vec![ends, all]),
        ),
    ]
}

/// A writer beside a committed reader and a prepared one above it, whose turn is before that of the writer or behind
/// it: the writer and the prepared reader each stand in so many of the four tables of seven boxes, and three of them
/// agree.
fn retry_stamps() -> Vec<Named> {
    let of = |(name, writers, readers, prepare): (&str, usize, usize, u8)| {
        let held = |place| {
            let all = [
                (writer(10, 1, 0), place < writers),
                (reader(20, 5, 3), place == 0),
                (reader(30, prepare, 0), place + readers >= 4),
            ];
            let held = all.into_iter().filter(|(_, stands)| *stands);
            held.map(|(row, _)| row).collect()
        };
        merged(name, gathered(7, (0..4).map(held).collect()))
    };
    let cases = [
        ("RETRY of an open writer beside a final reader", 1, 1, 5),
        ("RETRY of an agreed writer beside a final reader", 3, 1, 5),
        ("RETRY of an open writer beside an agreed reader", 1, 3, 1),
        ("RETRY of an agreed writer before an open reader", 3, 1, 1),
        ("RETRY of an open writer before an open reader", 1, 1, 1),
    ];
    cases.into_iter().map(of).collect()
}

/// "The merge keeps the older A and B": an entry under a committed one that it would be refused for by a box. M6 and M9
/// are the first two. In the last a fast OK at 10 of a group of five meets a later commit in one table.
fn under_later_entries() -> Vec<Named> {
    let open =
        |row: &Row, held: Row| gathered(3, vec![vec![row.clone(), held.clone()], vec![held]]);
    let late_reader = holding(transaction(30, &[(K, 10)], &[]), 5, 3);
    let both = holding(transaction(20, &[(K, 10)], &[(K, 2)]), 5, 3);
    let (m6, m9) = (reader(8, 1, 0), writer(9, 1, 0));
    let early = vec![writer(10, 1, 0)];
    let fast = vec![early.clone(), early, vec![both.clone()]];
    vec![
        merged("M6", open(&m6, writer(10, 5, 3))),
        merged("M9", open(&m9, late_reader)),
        merged("a write under a later commit", open(&m9, writer(10, 5, 3))),
        merged("a write under a later OK", open(&m9, writer(10, 5, 0))),
        merged("a fast OK under a later commit", gathered(5, fast)),
    ]
}
