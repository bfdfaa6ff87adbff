//! Merges of the boxes of a group that has promised a view, and every way in which one is refused. Each number follows from
//! the paper by hand as well.

use crate::calls::{Calls, Lengths};
use crate::met::Met;
use crate::{in_every_group, messages};
use samples::{damage, message as make, random, transactions, Row, Table, MOST_ROWS, TABLE_BYTES};

const LEAST_CALLS: u64 = 15_000;

/// The merges with their numbers.
const CASES: [(&str, &[u8]); 28] = [
    ("f+1 boxes", &[0]),
    ("f+1 boxes in another order", &[0]),
    ("one box too few", &[11]),
    ("one box too many", &[11]),
    ("nine names", &[11]),
    ("a box twice", &[11]),
    ("no boxes", &[2]),
    ("a box beyond the lent buffer", &[2]),
    ("a lent buffer that ends with the last image", &[0]),
    ("a lent buffer that ends a byte before that", &[2]),
    ("a damaged box", &[2]),
    ("a damaged box that is not named", &[0]),
    ("a run one byte short", &[1]),
    ("a run that has room for the images alone", &[1]),
    ("260 names and a run for nine boxes", &[1]),
    ("an output one byte short", &[1]),
    ("no output", &[1]),
    ("a short run and a damaged box", &[1]),
    ("a short output and a damaged box", &[1]),
    ("another view", &[11]),
    ("a box that promised another view", &[11]),
    ("a box that promised nothing", &[11]),
    ("the table of another box", &[11]),
    ("the table of another group", &[11]),
    ("one stamp with two bodies", &[5]),
    ("contradictions", &[6]),
    ("513 stamps", &[7]),
    ("tables to the last byte", &[0]),
];

/// A group all of whose boxes have promised a view.
struct Promised<'a> {
    calls: &'a mut Calls,
    met: &'a mut Met,
    n: u8,
    view: u32,
}

impl Promised<'_> {
    /// f+1 boxes in any order; behind them the others.
    fn boxes(&mut self) -> (Vec<u8>, Vec<u8>) {
        let mut boxes: Vec<u8> = (0..self.n).collect();
        self.calls.dice.shuffle(&mut boxes);
        let others = boxes.split_off(usize::from(self.n / 2 + 1));
        (boxes, others)
    }

    /// Buffers that are long enough for so many boxes.
    fn enough(&mut self, boxes: usize) -> Lengths {
        Lengths {
            tables: self.calls.room_for(usize::from(self.n)),
            run: self.calls.room_for(boxes),
            out: self.calls.room_for(1),
        }
    }

    fn ask_with(&mut self, case: &str, lengths: Lengths, boxes: &[u8], view: u32) {
        let number = self.calls.merge_boxes(lengths, boxes, view);
        self.met.count(case, number);
    }

    fn ask(&mut self, case: &str, boxes: &[u8]) {
        let lengths = self.enough(boxes.len());
        self.ask_with(case, lengths, boxes, self.view);
    }

    fn counts(&mut self) {
        let (mut boxes, others) = self.boxes();
        self.ask("f+1 boxes", &boxes);
        boxes.reverse();
        self.ask("f+1 boxes in another order", &boxes);
        let lengths = self.enough(boxes.len());
        self.ask_with("another view", lengths, &boxes, self.view + 1);
        self.ask("one box too few", &boxes[1..]);
        self.ask("one box too many", &[&boxes[..], &others[..1]].concat());
        let nine: Vec<u8> = (0..9).map(|place| place % self.n).collect();
        self.ask("nine names", &nine);
        self.ask("no boxes", &[]);
        let last = boxes.len() - 1;
        boxes[last] = boxes[0];
        self.ask("a box twice", &boxes);
    }

    /// A lent buffer that ends too early for a box that is named.
    fn cut(&mut self) {
        let (mut boxes, _) = self.boxes();
        let place = self.calls.dice.index(boxes.len());
        boxes[place] = self.calls.dice.one_of(&[self.n, self.n + 1, 255]);
        let mut lengths = self.enough(boxes.len());
        lengths.tables = TABLE_BYTES * usize::from(self.n);
        self.ask_with("a box beyond the lent buffer", lengths, &boxes, self.view);
        let (boxes, _) = self.boxes();
        let last = *boxes.iter().max().expect("a box");
        let image = self.calls.image(last).len();
        lengths.tables = TABLE_BYTES * usize::from(last) + image;
        let case = "a lent buffer that ends with the last image";
        self.ask_with(case, lengths, &boxes, self.view);
        lengths.tables -= 1;
        let case = "a lent buffer that ends a byte before that";
        self.ask_with(case, lengths, &boxes, self.view);
    }

    fn too_short(&mut self) {
        let (boxes, _) = self.boxes();
        let enough = self.enough(boxes.len());
        let images: usize = boxes.iter().map(|b| self.calls.image(*b).len()).sum();
        let needed = TABLE_BYTES * boxes.len();
        for (case, run, out) in [
            ("a run one byte short", needed - 1, enough.out),
            (
                "a run that has room for the images alone",
                images,
                enough.out,
            ),
            ("an output one byte short", enough.run, TABLE_BYTES - 1),
            ("no output", enough.run, 0),
        ] {
            let lengths = Lengths { run, out, ..enough };
            self.ask_with(case, lengths, &boxes, self.view);
        }
        // So many that their number would be 4 in one byte.
        let lengths = self.enough(9);
        let names = boxes.repeat(260 / boxes.len() + 1);
        let case = "260 names and a run for nine boxes";
        self.ask_with(case, lengths, &names[..260], self.view);
    }

    /// A box whose table breaks a rule: 2, unless a buffer is too short or the box is not named.
    fn damaged(&mut self) {
        let (boxes, others) = self.boxes();
        for named in [true, false] {
            let from = if named { &boxes } else { &others };
            let box_number = self.calls.dice.one_of(from);
            let image = self.calls.image(box_number).to_vec();
            let mut spoiled = image.clone();
            damage::spoil(&mut self.calls.dice, &mut spoiled);
            self.calls.hold(box_number, &spoiled);
            if named {
                self.ask("a damaged box", &boxes);
                let mut lengths = self.enough(boxes.len());
                lengths.run = TABLE_BYTES * boxes.len() - 1;
                self.ask_with("a short run and a damaged box", lengths, &boxes, self.view);
                lengths = self.enough(boxes.len());
                lengths.out = TABLE_BYTES - 1;
                let case = "a short output and a damaged box";
                self.ask_with(case, lengths, &boxes, self.view);
            } else {
                self.ask("a damaged box that is not named", &boxes);
            }
            self.calls.hold(box_number, &image);
        }
    }

    /// One of the boxes that are named has a table that is by the rules and does not belong to the merge.
    fn wrong_tables(&mut self) {
        let (boxes, _) = self.boxes();
        let own = self.calls.image(boxes[0]).to_vec();
        let mut later = own.clone();
        later[12..16].copy_from_slice(&(self.view + 1).to_be_bytes());
        let mut normal = own.clone();
        normal[3] = 0;
        normal[12..16].copy_from_slice(&own[8..12]);
        let mut of_another_box = own.clone();
        of_another_box[1] = boxes[1];
        let mut of_another_group = own.clone();
        of_another_group[2] = if self.n == 7 { 5 } else { self.n + 2 };
        of_another_group[1] %= of_another_group[2];
        for (case, image) in [
            ("a box that promised another view", later),
            ("a box that promised nothing", normal),
            ("the table of another box", of_another_box),
            ("the table of another group", of_another_group),
        ] {
            self.calls.hold(boxes[0], &image);
            self.ask(case, &boxes);
        }
        self.calls.hold(boxes[0], &own);
    }

    /// Rows in the tables of f+1 boxes, as many tables as are given first and the last of them in all the others.
    fn ask_of_rows(&mut self, case: &str, rows: &[&[Row]]) {
        let (boxes, _) = self.boxes();
        for (place, box_number) in boxes.iter().enumerate() {
            let table = Table {
                box_number: *box_number,
                n: self.n,
                mode: 1,
                view: 0,
                promised: self.view,
                start_rows: 0,
                rows: rows[place.min(rows.len() - 1)].to_vec(),
            };
            self.calls.hold(*box_number, &table.image());
        }
        self.ask(case, &boxes);
    }

    fn disputed(&mut self) {
        let transactions = transactions::some(&mut self.calls.dice);
        let row = &transactions[0];
        let with = |row: &Row, prepare, outcome| Row {
            prepare,
            outcome,
            ..row.clone()
        };
        let other = make::with_other_body(&mut self.calls.dice, row);
        let (one, other) = ([with(row, 1, 0)], [with(&other, 1, 0)]);
        self.ask_of_rows("one stamp with two bodies", &[&one, &other]);
        let (one, other) = ([with(row, 5, 0)], [with(row, 6, 0)]);
        self.ask_of_rows("contradictions", &[&one, &other]);
        let (one, other) = ([with(row, 1, 1)], [with(row, 1, 4)]);
        self.ask_of_rows("contradictions", &[&one, &other]);
    }

    fn large(&mut self) {
        let rows = random::full_table(&mut self.calls.dice, MOST_ROWS + 1).rows;
        self.ask_of_rows("513 stamps", &[&rows[..300], &rows[200..]]);
        // The run is then full to its last byte as well.
        self.ask_of_rows("tables to the last byte", &[&rows[1..]]);
    }
}

/// A group whose boxes heard of some transactions, not all of them of all, and then promised a view.
fn promised<'a>(calls: &'a mut Calls, met: &'a mut Met, n: u8) -> Promised<'a> {
    let room = TABLE_BYTES * usize::from(n);
    assert_eq!(calls.start_fresh(n, room), 0);
    let transactions = transactions::some(&mut calls.dice);
    for _ in 0..calls.dice.index(60) {
        let dice = &mut calls.dice;
        let box_number = dice.below(u64::from(n)) as u8;
        let row = &transactions[dice.index(transactions.len())];
        let kind = dice.one_of(&[1, 1, 1, 2, 3, 4]);
        let message = messages::about(dice, kind, row, 0, false);
        calls.arrive((room, 24), box_number, &message);
    }
    let view = 1 + calls.dice.index(20) as u32;
    for box_number in 0..n {
        let number = calls.arrive((room, 24), box_number, &make::change_view(view));
        assert_eq!(number, 0);
    }
    Promised {
        calls,
        met,
        n,
        view,
    }
}

fn many_merges(calls: &mut Calls, met: &mut Met, n: u8) {
    for turn in 0..80 {
        let mut group = promised(calls, met, n);
        group.counts();
        group.cut();
        group.too_short();
        group.damaged();
        group.wrong_tables();
        group.disputed();
        if turn % 10 == 0 {
            group.large();
        }
    }
}

#[test]
fn boxes_are_merged_as_by_the_second_program() {
    let met = in_every_group(many_merges, LEAST_CALLS);
    met.assert_all(&CASES, 20);
}
