//! Messages 5 and 6: number 10, and what a start image must be.

use super::{changing, lonely, named, normal};
use crate::case::{Case, SMALL};
use crate::cases::Named;
use crate::plain::Sent;
use samples::{Row, Table};

pub fn all() -> Vec<Named> {
    let mut cases = old_views();
    cases.extend(headers());
    cases.extend(rows());
    cases
}

/// Rows as a view begins with them.
fn settled_rows() -> Vec<Row> {
    vec![lonely(3, 5, 0), lonely(9, 8, 3), lonely(12, 0, 4)]
}

/// The image with which a view of three boxes begins.
fn image(view: u32, rows: Vec<Row>) -> Table {
    Table {
        box_number: (view % 3) as u8,
        n: 3,
        mode: 0,
        view,
        promised: view,
        start_rows: rows.len() as u32,
        rows,
    }
}

/// "message 5 with v at or below promised; 6 with v below promised or at or below view", to a normal box of view 4 and to
/// one that promised 7. What stood in its table does not matter to message 6.
fn old_views() -> Vec<Named> {
    let rows = vec![lonely(3, 2, 1), lonely(10, 1, 2), lonely(20, 3, 0)];
    let mut cases = to_views("normal", normal(rows.clone()));
    cases.extend(to_views("changing", changing(rows)));
    cases
}

fn to_views(mode: &str, held: Table) -> Vec<Named> {
    let both = |view: u32| {
        let name = format!("for view {} to a {} box", view, mode);
        let change = Case::answer(&held, Sent::ChangeView(view));
        let start = Sent::StartView(view, image(view, settled_rows()));
        let start = Case::answer(&held, start);
        [
            named(format!("message 5 {}", name), change),
            named(format!("message 6 {}", name), start),
        ]
    };
    let views = [0, 3, 4, 5, 6, 7, 8, u32::MAX];
    views.into_iter().flat_map(both).collect()
}

fn started(name: &str, view: u32, image: Table) -> Named {
    let held = changing(vec![lonely(3, 1, 1)]);
    let case = Case::answer(&held, Sent::StartView(view, image));
    named(format!("start image: {}", name), case)
}

/// What one thing is made otherwise in an image that begins view 7 with three rows.
const HEADERS: [(&str, fn(&mut Table)); 12] = [
    ("by all rules", |_| ()),
    ("no rows", |image| {
        (image.rows, image.start_rows) = (Vec::new(), 0)
    }),
    ("changing", |image| (image.mode, image.promised) = (1, 8)),
    ("of the view before", |image| {
        (image.view, image.promised) = (6, 6)
    }),
    ("of the view behind", |image| {
        (image.view, image.promised) = (8, 8)
    }),
    ("promised is not its view", |image| image.promised = 8),
    ("of the box before", |image| image.box_number -= 1),
    ("of the box behind", |image| image.box_number += 1),
    ("of another n", |image| image.n = 5),
    ("of another n and its box", |image| {
        (image.n, image.box_number) = (5, 2)
    }),
    ("a start row less", |image| image.start_rows -= 1),
    ("a start row more", |image| image.start_rows += 1),
];

/// "The image must be normal, view v, box v mod n, the same n, start rows equal to rows", and an image by the rules.
fn headers() -> Vec<Named> {
    let with = |(name, change): (&str, fn(&mut Table))| {
        let mut image = image(7, settled_rows());
        change(&mut image);
        started(name, 7, image)
    };
    let mut cases: Vec<Named> = HEADERS.into_iter().map(with).collect();
    // 3 comes before 10.
    cases.push(started(
        "of another view and old",
        6,
        image(5, settled_rows()),
    ));
    cases
}

/// "prepare bytes 0 or 5 to 8, outcomes 0, 3 or 4", and rows by the rules.
fn rows() -> Vec<Named> {
    let of = |name: &str, rows: Vec<Row>| started(name, 7, image(7, rows));
    let mut cases = Vec::new();
    for prepare in 0..=8 {
        let rows = vec![lonely(3, 5, 3), lonely(9, prepare, 4)];
        cases.push(of(&format!("prepare {}", prepare), rows));
    }
    for outcome in 0..=4 {
        let rows = vec![lonely(3, 5, 3), lonely(9, 7, outcome)];
        cases.push(of(&format!("outcome {}", outcome), rows));
    }
    let most = SMALL.rows as u64;
    let all_full = (1..=most).map(|stamp| lonely(stamp, 5, 0)).collect();
    let too_many = (1..=most + 1).map(|stamp| lonely(stamp, 5, 0)).collect();
    cases.push(of("as many rows as there may be", all_full));
    cases.push(of("one row too many", too_many));
    cases.push(of("a stamp twice", vec![lonely(9, 5, 0), lonely(9, 5, 0)]));
    cases.push(of("a row that holds nothing", vec![lonely(9, 0, 0)]));
    cases
}
