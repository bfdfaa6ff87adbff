//! Runs of tables that one merge may be made of.

use crate::{Dice, Row, Table};

/// Tables laid end to end, and the view that their merge is for.
#[derive(Clone, Debug)]
pub struct Run {
    pub tables: Vec<Table>,
    pub view: u32,
}

impl Run {
    pub fn bytes(&self) -> Vec<u8> {
        self.tables.iter().flat_map(Table::image).collect()
    }

    /// The same tables in another order.
    pub fn shuffled(&self, dice: &mut Dice) -> Run {
        let mut run = self.clone();
        dice.shuffle(&mut run.tables);
        run
    }

    pub fn newest(&self) -> u32 {
        let views = self.tables.iter().map(|table| table.view);
        views.max().expect("a table")
    }

    /// The indexes of the tables of the greatest last normal view.
    pub fn used(&self) -> Vec<usize> {
        let newest = self.newest();
        let all = 0..self.tables.len();
        all.filter(|index| self.tables[*index].view == newest)
            .collect()
    }

    /// Gives a table its rows; how many of them its view began with is left to chance.
    pub fn fill(&mut self, dice: &mut Dice, index: usize, rows: Vec<Row>) {
        let table = &mut self.tables[index];
        let some = dice.index(rows.len() + 1);
        table.start_rows = dice.one_of(&[0, some, rows.len()]) as u32;
        table.rows = rows;
    }
}

/// Tables without rows of any f+1 boxes that promised a view, all of one last normal view, which leaves room for older ones.
pub fn quorum(dice: &mut Dice) -> Run {
    let n = dice.one_of(&[3, 5, 7]);
    quorum_of(dice, n)
}

pub fn quorum_of(dice: &mut Dice, n: u8) -> Run {
    let few = 2 + dice.below(12) as u32;
    let any = 2 + dice.below(u64::from(u32::MAX - 1)) as u32;
    let view = dice.one_of(&[2, few, any, u32::MAX - 1, u32::MAX]);
    let newest = 1 + dice.below(u64::from(view) - 1) as u32;
    let newest = dice.one_of(&[newest, view - 1]);
    let mut boxes: Vec<u8> = (0..n).collect();
    dice.shuffle(&mut boxes);
    boxes.truncate(usize::from(n / 2 + 1));
    let tables = boxes.into_iter().map(|box_number| Table {
        box_number,
        n,
        mode: 1,
        view: newest,
        promised: view,
        start_rows: 0,
        rows: Vec::new(),
    });
    Run {
        tables: tables.collect(),
        view,
    }
}

/// Has some tables left behind in older views; so many at least stay in the newest.
pub fn leave_behind(dice: &mut Dice, run: &mut Run, least_used: usize) {
    let newest = run.newest();
    let most = run.tables.len() - least_used;
    let mut indexes: Vec<usize> = (0..run.tables.len()).collect();
    dice.shuffle(&mut indexes);
    indexes.truncate(dice.index(most + 1));
    for index in indexes {
        let any = dice.below(u64::from(newest)) as u32;
        run.tables[index].view = dice.one_of(&[0, any, newest - 1]);
    }
}
