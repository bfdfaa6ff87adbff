//! Runs of images by the rules that are not the tables of a merge, and those that just are.

use crate::lent::Lent;
use samples::runs::{self, Run};
use samples::{random, Table};

/// No to eight images, in every group.
pub fn counts(lent: &mut Lent) {
    for _ in 0..200 {
        for n in [3, 5, 7] {
            (0..=8).for_each(|images| so_many(lent, n, images));
        }
    }
}

/// As many images as these, of different boxes as far as the group has them.
fn so_many(lent: &mut Lent, n: u8, images: usize) {
    let mut run = runs::quorum_of(&mut lent.dice, n);
    let mut boxes: Vec<u8> = (0..n).collect();
    lent.dice.shuffle(&mut boxes);
    let one = run.tables[0].clone();
    let of_box = |place: usize| Table {
        box_number: boxes[place % boxes.len()],
        ..one.clone()
    };
    run.tables = (0..images).map(of_box).collect();
    let expected = match images {
        0 => 2,
        _ if images == usize::from(n / 2 + 1) => 0,
        _ => 11,
    };
    assert_eq!(lent.ask(&run.bytes(), run.view), expected, "{:?}", run);
}

/// Each two places with the same box, however far apart, also in tables that are not used.
pub fn boxes(lent: &mut Lent) {
    for _ in 0..300 {
        for n in [3, 5, 7] {
            let tables = usize::from(n / 2 + 1);
            let pairs = (0..tables).flat_map(|one| (0..tables).map(move |other| (one, other)));
            for (one, other) in pairs.filter(|(one, other)| one != other) {
                let mut run = runs::quorum_of(&mut lent.dice, n);
                runs::leave_behind(&mut lent.dice, &mut run, 1);
                assert_eq!(lent.ask(&run.bytes(), run.view), 0);
                run.tables[one].box_number = run.tables[other].box_number;
                assert_eq!(lent.ask(&run.bytes(), run.view), 11, "{:?}", run);
            }
        }
    }
}

/// Views about those of the tables; and any tables at all, whatever they promised.
pub fn views(lent: &mut Lent) {
    for turn in 0..6_000 {
        let mut run = runs::quorum(&mut lent.dice);
        runs::leave_behind(&mut lent.dice, &mut run, 1);
        let (view, newest) = (run.view, run.newest());
        let about = [
            0,
            1,
            newest,
            newest - 1,
            view - 1,
            view.wrapping_add(1),
            u32::MAX,
        ];
        for asked in about {
            let number = lent.ask(&run.bytes(), asked);
            assert_eq!(number == 11, asked != view, "{} of {:?}", asked, run);
        }
        let any = any_tables(lent, turn % 5);
        lent.ask(&any.bytes(), any.view);
    }
}

/// So many tables that have nothing to do with each other, and a view that one of them may have promised.
fn any_tables(lent: &mut Lent, tables: usize) -> Run {
    let dice = &mut lent.dice;
    let any = |_| {
        let rows = dice.index(5);
        random::table(dice, rows)
    };
    let tables: Vec<Table> = (0..tables).map(any).collect();
    let view = tables.last().map_or(0, |table| table.promised);
    Run { tables, view }
}
