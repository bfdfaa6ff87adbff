//! Histories of a group: its boxes answer messages, promise views, their tables are merged, the merged image is sent to
//! some of them, and they go on in the new view.

use crate::lent::Lent;
use crate::started;
use samples::{message as make, transactions, Dice, Row, TABLE_BYTES};

/// The boxes of a group, each with the buffer of its table.
struct Group {
    boxes: Vec<Vec<u8>>,
    /// The transactions that the messages are about, in any order of their stamps, and how many of them have begun: in
    /// each view new ones do, before and behind those that a merge has settled.
    transactions: Vec<Row>,
    begun: usize,
    /// The last view that a merge was for.
    view: u32,
}

/// A group from its fresh tables through so many views.
pub fn history(lent: &mut Lent, views: usize) {
    let mut group = Group::fresh(&mut lent.dice);
    for _ in 0..views {
        group.begun = (group.begun + 1 + lent.dice.index(4)).min(group.transactions.len());
        for _ in 0..lent.dice.index(40) {
            group.hears(&mut lent.dice);
        }
        group.changes(lent);
    }
}

impl Group {
    fn fresh(dice: &mut Dice) -> Group {
        let n = dice.one_of(&[3, 5, 7]);
        let fresh = |box_number| {
            let mut table = vec![0xee; TABLE_BYTES];
            assert_eq!(boundary::fresh(&mut table, n, box_number), 0);
            table
        };
        let boxes = (0..n).map(fresh).collect();
        let mut transactions = transactions::some(dice);
        dice.shuffle(&mut transactions);
        Group {
            boxes,
            transactions,
            begun: 0,
            view: 0,
        }
    }

    /// A message about a transaction, which some of the boxes get.
    fn hears(&mut self, dice: &mut Dice) {
        let any = dice.index(self.begun);
        let row = &self.transactions[dice.one_of(&[any, self.begun - 1])];
        let kind = dice.one_of(&[1, 1, 1, 2, 3, 4]);
        let reached = dice.one_of(&[20, 60, 100]);
        for table in &mut self.boxes {
            if dice.in_a_hundred(reached) {
                let message = about(dice, kind, row, view_of(table));
                answered(table, &message);
            }
        }
    }

    /// f+1 boxes or more promise a view, and tables of f+1 of them are merged; now and then one is missing.
    fn changes(&mut self, lent: &mut Lent) {
        self.view += lent.dice.one_of(&[1, 1, 1, 2]);
        let quorum = self.boxes.len() / 2 + 1;
        let mut reached: Vec<usize> = (0..self.boxes.len()).collect();
        lent.dice.shuffle(&mut reached);
        let more = lent.dice.index(self.boxes.len() - quorum + 1);
        reached.truncate(quorum + more);
        for place in &reached {
            answered(&mut self.boxes[*place], &make::change_view(self.view));
        }
        let strange = lent.dice.in_a_hundred(5);
        reached.truncate(if strange { quorum - 1 } else { quorum });
        let images = reached.iter().map(|place| image(&self.boxes[*place]));
        let run = images.collect::<Vec<&[u8]>>().concat();
        if lent.ask(&run, self.view) == 0 && lent.dice.in_a_hundred(80) {
            self.starts(lent);
        }
    }

    /// Some boxes get the merged image, also such as have promised nothing; none has gone further.
    fn starts(&mut self, lent: &mut Lent) {
        let merged = lent.image().to_vec();
        let reached = lent.dice.one_of(&[40, 80, 100]);
        for table in &mut self.boxes {
            if lent.dice.in_a_hundred(reached) {
                started::accepted(table, self.view, &merged);
            }
        }
    }
}

/// What a box makes of a message is for the tests of the answer.
fn answered(table: &mut [u8], message: &[u8]) {
    boundary::answer(table, message, &mut [0; 24]);
}

fn image(table: &[u8]) -> &[u8] {
    &table[..number_at(table, 20)]
}

fn view_of(table: &[u8]) -> u32 {
    number_at(table, 8) as u32
}

fn number_at(table: &[u8], at: usize) -> usize {
    u32::from_be_bytes(table[at..at + 4].try_into().expect("four bytes")) as usize
}

/// A message about a transaction. Nearly all have its body, and for each stamp one result and one outcome.
fn about(dice: &mut Dice, kind: u8, row: &Row, view: u32) -> Vec<u8> {
    let other = make::with_other_body(dice, row);
    let usual = dice.below(1_000) > 2;
    let row = if usual { row } else { &other };
    let turned = u64::from(dice.below(1_000) < 2);
    let result = [(1, 0), (1, 0), (1, 0), (2, 0), (3, 0), (4, row.stamp)];
    let result = result[((row.stamp + turned) % 6) as usize];
    let verdict = if (row.stamp + turned) % 3 == 0 { 2 } else { 1 };
    match kind {
        1 => make::propose_prepare(row),
        2 => make::finalise_prepare(row.stamp, view, result),
        3 => make::propose_outcome(row, verdict),
        _ => make::finalise_outcome(row.stamp, view, verdict),
    }
}
