//! Messages to one box, over few registers and few stamps, so that clashes, held rows, outcomes and changes of view are frequent;
//! and what the second program answers.

use samples::{message as make, random, transactions, Dice, Row, GREATEST_STAMP};

/// A box, by the image of its table, and the transactions that its messages are about.
pub struct History {
    pub dice: Dice,
    pub image: Vec<u8>,
    transactions: Vec<Row>,
}

impl History {
    /// A fresh box, or now and then one that has no room in its view, or room for one row.
    pub fn seeded(seed: u64) -> History {
        let mut dice = Dice::seeded(seed);
        let n = dice.one_of(&[3, 5, 7]);
        let mut image = super::fresh(n, dice.below(u64::from(n)) as u8);
        let mut transactions = transactions::some(&mut dice);
        if seed % 7 == 0 {
            let table = nearly_full(&mut dice, n, seed);
            transactions.extend(table.rows.iter().take(5).cloned());
            image = table.image();
        }
        History {
            dice,
            image,
            transactions,
        }
    }

    fn number_at(&self, place: usize) -> u32 {
        u32::from_be_bytes(self.image[place..place + 4].try_into().expect("four bytes"))
    }

    /// A message that the box may well get; a few are none.
    pub fn message(&mut self) -> Vec<u8> {
        let usual: &[u8] = if self.image[3] == 1 {
            &[1, 2, 3, 4, 5, 6, 6, 6, 6, 7]
        } else {
            &[1, 1, 1, 1, 2, 2, 3, 3, 4, 4, 4, 5, 6, 7, 7]
        };
        let message = match self.dice.one_of(usual) {
            5 => make::change_view(self.later_view()),
            6 => {
                let view = self.later_view();
                make::start_view(view, &settled(&self.image, view))
            }
            kind => self.about(kind),
        };
        if self.dice.in_a_hundred(6) {
            return spoiled(&mut self.dice, message);
        }
        message
    }

    fn about(&mut self, kind: u8) -> Vec<u8> {
        let view = self.number_at(8);
        let mut row = self.transaction();
        let dice = &mut self.dice;
        if dice.in_a_hundred(6) {
            row = make::with_other_body(dice, &row);
        }
        let view = dice.one_of(&[view, view, view, view, view.wrapping_add(1)]);
        let usual = if row.stamp % 5 < 3 { 1 } else { 2 };
        let verdict = dice.one_of(&[usual, usual, usual, usual, 3 - usual]);
        let later = dice.one_of(&[1, row.stamp, GREATEST_STAMP]);
        let result = dice.one_of(&[(1, 0), (1, 0), (1, 0), (2, 0), (3, 0), (4, later)]);
        match kind {
            1 => make::propose_prepare(&row),
            2 => make::finalise_prepare(row.stamp, view, result),
            3 => make::propose_outcome(&row, verdict),
            4 => make::finalise_outcome(row.stamp, view, verdict),
            _ => make::read(
                dice.one_of(&[row.stamp, GREATEST_STAMP]),
                dice.one_of(&[0, 0, 1, 2, 63]),
            ),
        }
    }

    /// A transaction; half of the time one that the box holds, if it holds any.
    fn transaction(&mut self) -> Row {
        let any = self.dice.index(self.transactions.len());
        let rows = self.number_at(4) as usize;
        if rows == 0 || self.dice.in_a_hundred(50) {
            return self.transactions[any].clone();
        }
        let at = 24 + 24 * self.dice.index(rows);
        let stamp = &self.image[at..at + 8];
        let held = self.transactions.iter();
        let mut held = held.filter(|row| row.stamp.to_be_bytes() == stamp);
        held.next().unwrap_or(&self.transactions[any]).clone()
    }

    /// A view above what is promised, or just not.
    fn later_view(&mut self) -> u32 {
        let (view, promised) = (self.number_at(8), self.number_at(12));
        let next = promised.saturating_add(1);
        let far = next.saturating_add(self.dice.below(9) as u32);
        self.dice.one_of(&[view, promised, next, next, far])
    }

    /// The second program's answer: the number and the reply. The box has the table of it from then on.
    pub fn answer(&mut self, message: &[u8]) -> (u8, Vec<u8>) {
        let (number, image, reply) = super::answered(&self.image, message);
        self.image = image;
        (number, reply)
    }
}

/// A table that has added its share since view 3 began, or all but one row of it. Every third one has 512 rows, which is more than
/// a share: a box that did not keep room for the merge has filled it.
fn nearly_full(dice: &mut Dice, n: u8, seed: u64) -> samples::Table {
    let start_rows = dice.one_of(&[0, 7, 300, 506]);
    let share = (512 - start_rows) / (u32::from(n) / 2 + 1);
    let rows = match seed % 3 {
        0 => start_rows + share,
        1 => start_rows + share - 1,
        _ => 512,
    };
    samples::Table {
        box_number: dice.below(u64::from(n)) as u8,
        n,
        mode: 0,
        view: 3,
        promised: 3,
        start_rows,
        ..random::table(dice, rows as usize)
    }
}

/// The image with every prepare final and every outcome done, as the view begins with it.
pub fn settled(image: &[u8], view: u32) -> Vec<u8> {
    let mut image = image.to_vec();
    image[1] = (view % u32::from(image[2])) as u8;
    image[3] = 0;
    image[8..12].copy_from_slice(&view.to_be_bytes());
    image[12..16].copy_from_slice(&view.to_be_bytes());
    image.copy_within(4..8, 16);
    let rows = u32::from_be_bytes(image[4..8].try_into().expect("four bytes")) as usize;
    for row in image[24..].chunks_exact_mut(24).take(rows) {
        row[22] += if matches!(row[22], 1..=4) { 4 } else { 0 };
        row[23] += if matches!(row[23], 1 | 2) { 2 } else { 0 };
    }
    image
}

/// The message with a byte less, a byte more or a byte changed. What comes of it may be a message all the same.
pub fn spoiled(dice: &mut Dice, mut message: Vec<u8>) -> Vec<u8> {
    let place = dice.index(message.len().min(40));
    match dice.index(3) {
        0 => drop(message.pop()),
        1 => message.push(dice.byte()),
        _ => message[place] ^= 1 << dice.below(8),
    }
    message
}

/// A table of so many rows, normal in view 0, of box 0 of 3: stamps 1:1, 2:1 and so on, one write each.
pub fn long_table(rows: u64) -> Vec<u8> {
    let row = |time: u64| Row {
        stamp: time * 65_536 + 1,
        ..samples::row_of_the_paper(1)
    };
    samples::Table::in_view_0((1..=rows).map(row).collect()).image()
}

/// The same table in a group of n, in view 7, which began with so many of the rows.
pub fn in_a_view(n: u8, start_rows: u32, rows: u32) -> Vec<u8> {
    let mut image = long_table(u64::from(rows));
    image[2] = n;
    image[8..12].copy_from_slice(&7_u32.to_be_bytes());
    image[12..16].copy_from_slice(&7_u32.to_be_bytes());
    image[16..20].copy_from_slice(&start_rows.to_be_bytes());
    image
}
