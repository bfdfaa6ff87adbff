//! A group of boxes whose coordinators keep no rule: messages to any of them, promises, merges of any f+1 tables and of other
//! numbers of them, and views that are started.

use super::{ask, buffer, dirt, image, table_length};
use crate::both::{Both, Difference};
use samples::{message, next, transactions, Dice, Row, TABLE_BYTES};

struct Group {
    boxes: Vec<Vec<u8>>,
    transactions: Vec<Row>,
    /// The last view that was promised or merged for.
    view: u32,
}

/// A group from its fresh tables through some views.
pub fn group(both: &mut Both, dice: &mut Dice) -> Result<(), Difference> {
    let mut group = Group::fresh(both, dice)?;
    for _ in 0..2 + dice.index(5) {
        for _ in 0..dice.index(60) {
            group.hears(both, dice)?;
        }
        group.changes(both, dice)?;
    }
    Ok(())
}

impl Group {
    fn fresh(both: &mut Both, dice: &mut Dice) -> Result<Group, Difference> {
        let n = dice.one_of(&[3, 5, 7]);
        let mut boxes = Vec::new();
        for box_number in 0..n {
            let mut table = dirt(dice, TABLE_BYTES);
            both.fresh(dice, &mut table, (n, box_number))?;
            boxes.push(table);
        }
        let transactions = transactions::some(dice);
        Ok(Group {
            boxes,
            transactions,
            view: 0,
        })
    }

    /// One message, which goes on from what one box holds, reaches some of them.
    fn hears(&mut self, both: &mut Both, dice: &mut Dice) -> Result<(), Difference> {
        let first = dice.index(self.boxes.len());
        let held = image(&self.boxes[first]).expect("a box with a table");
        let message = next::message(dice, held, &self.transactions);
        let reached = dice.one_of(&[0, 30, 60, 100]);
        for (place, table) in self.boxes.iter_mut().enumerate() {
            if place == first || dice.in_a_hundred(reached) {
                ask(both, dice, table, &message)?;
            }
        }
        Ok(())
    }

    /// Some boxes promise a view; tables of f+1 of them are merged, now and then of more or fewer; most get the merge.
    fn changes(&mut self, both: &mut Both, dice: &mut Dice) -> Result<(), Difference> {
        let promised = self.boxes.iter().map(|table| promised(table)).max();
        self.view = promised
            .unwrap_or(0)
            .saturating_add(dice.one_of(&[1, 1, 2]));
        let mut reached: Vec<usize> = (0..self.boxes.len()).collect();
        dice.shuffle(&mut reached);
        let quorum = self.boxes.len() / 2 + 1;
        let change = message::change_view(self.view);
        for place in &reached[..quorum] {
            ask(both, dice, &mut self.boxes[*place], &change)?;
        }
        let merged = dice.one_of(&[quorum, quorum, quorum, quorum - 1, quorum + 1]);
        let run = self.run(&reached[..merged.min(self.boxes.len())]);
        let length = table_length(dice);
        let mut out = buffer(dice, &[], length);
        if both.merge(dice, &run, self.view, &mut out)? == 0 {
            self.starts(both, dice, &out)?;
        }
        Ok(())
    }

    fn run(&self, places: &[usize]) -> Vec<u8> {
        let images = places.iter().map(|place| image(&self.boxes[*place]));
        images.flatten().collect::<Vec<&[u8]>>().concat()
    }

    fn starts(
        &mut self,
        both: &mut Both,
        dice: &mut Dice,
        merged: &[u8],
    ) -> Result<(), Difference> {
        let start = message::start_view(self.view, image(merged).expect("an image"));
        for table in &mut self.boxes {
            if dice.in_a_hundred(80) {
                ask(both, dice, table, &start)?;
            }
        }
        Ok(())
    }
}

fn promised(table: &[u8]) -> u32 {
    u32::from_be_bytes(table[12..16].try_into().expect("four bytes"))
}
