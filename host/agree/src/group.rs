//! A group of boxes that random messages reach, and changes of its view.

use crate::case::{Case, SMALL};
use crate::parts::{body_of, outcome, result};
use crate::plain::{table_of, Sent};
use reference::{merged, respond, Message, Rows, Table};
use samples::Dice;

pub struct Group {
    dice: Dice,
    season: u64,
    boxes: Vec<Table>,
}

impl Group {
    pub fn new(season: u64, n: u8) -> Group {
        let fresh = |number| Table::beginning(n, number, 0, Rows::new());
        Group {
            dice: Dice::seeded(season),
            season,
            boxes: (0..n).map(fresh).collect(),
        }
    }

    /// One message to one box; few boxes get all of them, so that their tables fill.
    pub fn message(&mut self) -> Case {
        let place = self.dice.below(3) as usize;
        let message = message(&mut self.dice, self.season, &self.boxes[place], 9);
        self.deliver(place, message)
    }

    fn deliver(&mut self, place: usize, message: Message) -> Case {
        let held = self.boxes[place].clone();
        let answer = respond(SMALL, &held, &message);
        if let Ok((after, _)) = &answer {
            self.boxes[place] = after.clone();
        }
        Case::answer(&table_of(&held), Sent::of(&message))
    }

    /// f+1 boxes change the view, mostly, their tables are merged, and most boxes start with what comes out.
    pub fn change_of_view(&mut self) -> Vec<Case> {
        let n = self.boxes.len();
        let promises = self.boxes.iter().map(|table| table.promised());
        let view = 1 + promises.max().unwrap_or(0);
        let first = self.dice.below(n as u64) as usize;
        let mut cases = Vec::new();
        let mut tables = Vec::new();
        for place in (first..=first + n / 2).map(|place| place % n) {
            if self.dice.in_a_hundred(97) {
                cases.push(self.deliver(place, Message::ChangeView { view }));
            }
            tables.push(self.boxes[place].clone());
        }
        let result = merged(SMALL, &tables, view);
        let empty = Table::beginning(n as u8, (view as usize % n) as u8, view, Rows::new());
        let image = result.unwrap_or(empty);
        cases.push(Case::merge(view, tables.iter().map(table_of).collect()));
        for place in 0..n {
            if self.dice.in_a_hundred(70) {
                let image = image.clone();
                cases.push(self.deliver(place, Message::StartView { view, image }));
            }
        }
        cases
    }
}

/// A message that a box holding this table may well accept.
pub fn message(dice: &mut Dice, season: u64, table: &Table, stamps: u64) -> Message {
    let stamp = 1 + dice.below(stamps);
    let body = body_of(season + u64::from(dice.in_a_hundred(4)), stamp);
    let view = table.view + u32::from(dice.in_a_hundred(6));
    match dice.below(20) {
        0..=7 => Message::ProposePrepare { stamp, body },
        8..=10 => Message::FinalisePrepare {
            stamp,
            view,
            result: result(dice, stamp),
        },
        11..=13 => Message::ProposeOutcome {
            stamp,
            outcome: outcome(dice, stamp),
            body,
        },
        14..=16 => Message::FinaliseOutcome {
            stamp,
            view,
            outcome: outcome(dice, stamp),
        },
        17 => start(dice, table),
        _ => Message::Read {
            stamp,
            register: dice.below(2) as u8,
        },
    }
}

/// A start view made of the box's own rows, in most cases with one thing wrong.
fn start(dice: &mut Dice, table: &Table) -> Message {
    let view = table.promised() + dice.below(2) as u32;
    let box_number = ((view + u32::from(dice.in_a_hundred(30))) % u32::from(table.n)) as u8;
    let mut rows = table.rows.clone();
    if dice.in_a_hundred(50) {
        rows.values_mut().for_each(|row| *row = row.settled());
    }
    let mut image = Table::beginning(table.n, box_number, view, rows);
    if dice.in_a_hundred(10) && image.start_rows > 0 {
        image.start_rows -= 1;
    }
    Message::StartView { view, image }
}
