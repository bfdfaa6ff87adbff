//! The changes, each by the library and by the second program.

use super::read;
use reference::{HeldOutcome, HeldPrepare, Mode, Row, Table};
use samples::table::ROW_LENGTH;
use samples::Dice;

pub enum Change {
    Views {
        mode: u8,
        view: u32,
        promised: u32,
    },
    Promise {
        view: u32,
    },
    Prepare {
        index: usize,
        byte: u8,
        retry_stamp: u64,
    },
    Outcome {
        index: usize,
        byte: u8,
    },
    /// The row that the lent bytes begin with, added at its index.
    Row {
        index: usize,
        row: samples::Row,
        lent: Vec<u8>,
    },
    /// The image that the lent bytes begin with, taken.
    Image {
        lent: Vec<u8>,
    },
}

impl Change {
    /// A row more, in its place by its stamp. Its body lies right behind the row's 24 bytes or further on, with bytes in
    /// between and after it that are not its own.
    pub fn adding(dice: &mut Dice, table: &Table, row: &samples::Row) -> Change {
        let some = dice.index(200);
        let between = dice.one_of(&[0, 1, some]);
        let after = dice.one_of(&[0, 1, some]);
        let lent = [
            row.head(ROW_LENGTH + between),
            dice.bytes(between),
            row.body(),
            dice.bytes(after),
        ];
        Change::Row {
            index: table.rows.range(..row.stamp).count(),
            row: row.clone(),
            lent: lent.concat(),
        }
    }

    /// What is lent beside the table, and is only read.
    pub fn lent(&self) -> &[u8] {
        match self {
            Change::Row { lent, .. } | Change::Image { lent } => lent,
            _ => &[],
        }
    }

    /// Whoever makes a change sees to what the library asks for it.
    pub fn by_library(&self, table: &mut [u8]) {
        match self {
            Change::Views {
                mode,
                view,
                promised,
            } => unsafe { trial::set_views(table, *mode, *view, *promised) },
            Change::Promise { view } => unsafe { trial::promise(table, *view) },
            Change::Prepare {
                index,
                byte,
                retry_stamp,
            } => unsafe { trial::set_prepare(table, *index, *byte, *retry_stamp) },
            Change::Outcome { index, byte } => unsafe { trial::set_outcome(table, *index, *byte) },
            Change::Row { index, lent, .. } => unsafe { trial::add_row(table, *index, lent) },
            Change::Image { lent } => unsafe { trial::take_image(table, lent) },
        }
    }

    pub fn by_second_program(&self, table: &Table) -> Table {
        let mut after = table.clone();
        match self {
            Change::Views {
                mode,
                view,
                promised,
            } => {
                after.mode = mode_of(*mode, *view, *promised);
                after.view = *view;
            }
            Change::Promise { view } => after.mode = Mode::Changing { promised: *view },
            Change::Prepare {
                index,
                byte,
                retry_stamp,
            } => row_at(&mut after, *index).prepare = prepare_of(*byte, *retry_stamp),
            Change::Outcome { index, byte } => {
                row_at(&mut after, *index).outcome = HeldOutcome::from_byte(*byte).expect("a code")
            }
            Change::Row { row, .. } => add(&mut after, row),
            Change::Image { lent } => {
                after = Table::parse(lent).expect("an image").0;
                after.box_number = table.box_number;
            }
        }
        after
    }
}

/// The second program has no word for a normal table that promised another view, and none for other modes.
fn mode_of(byte: u8, view: u32, promised: u32) -> Mode {
    match byte {
        0 if promised == view => Mode::Normal,
        1 => Mode::Changing { promised },
        _ => panic!("mode {} is for no table by the rules", byte),
    }
}

fn prepare_of(byte: u8, retry_stamp: u64) -> Option<HeldPrepare> {
    HeldPrepare::from_byte(byte, retry_stamp).expect("a code with its retry stamp")
}

fn row_at(table: &mut Table, index: usize) -> &mut Row {
    let row = table.rows.values_mut().nth(index);
    row.expect("a row at the index")
}

/// The row as the second program reads it in a table of its own.
fn add(table: &mut Table, row: &samples::Row) {
    let alone = samples::Table::in_view_0(vec![row.clone()]);
    let held = table
        .rows
        .insert(row.stamp, read(&alone).rows[&row.stamp].clone());
    assert!(held.is_none(), "stamp {} was held", row.stamp);
}
