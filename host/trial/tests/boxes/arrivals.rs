//! Groups that are played: messages of all kinds arrive at their boxes, which promise views, are merged and go on.

use crate::calls::{number_at, Calls, Lengths};
use crate::met::Met;
use crate::{in_every_group, messages};
use samples::kinds::NUMBERS;
use samples::room::tables_of_a_merge;
use samples::{damage, message as make, random, transactions, Row, MOST_ROWS, TABLE_BYTES};

const LEAST_CALLS: u64 = 50_000;

/// A reply buffer that is long enough, and one that is not.
const REPLIES: [usize; 3] = [24, 25, 40];
const SHORT_REPLIES: [usize; 3] = [0, 1, 23];

/// The kinds of messages with the numbers that the paper has for each, and what was answered; then where a message arrived;
/// the merges.
const CASES: [(&str, &[u8]); 21] = [
    ("message 1", NUMBERS[1]),
    ("message 2", NUMBERS[2]),
    ("message 3", NUMBERS[3]),
    ("message 4", NUMBERS[4]),
    ("message 5", NUMBERS[5]),
    ("message 6", NUMBERS[6]),
    ("message 7", NUMBERS[7]),
    ("no kind", NUMBERS[0]),
    ("no bytes", NUMBERS[0]),
    ("the state after message 1", &[1, 2, 3, 4, 5, 6, 7, 8]),
    ("a write that is read", &[0]),
    ("a box beyond the lent buffer", &[1]),
    ("a lent buffer that ends inside the box's", &[1]),
    ("a reply buffer too short", &[1]),
    ("a damaged table", &[2]),
    ("no table", &[2]),
    ("beside a damaged table", &[0]),
    ("the table of another box", &[0]),
    ("a table with room for one row", &[0, 7]),
    ("a table to the last byte", &[0, 7]),
    ("a merge", &[0, 5, 6]),
];

/// What a message is, of which only its first byte tells the kind.
fn kind_of(message: &[u8]) -> String {
    match message.first() {
        None => "no bytes".to_string(),
        Some(kind @ 1..=7) => format!("message {}", kind),
        Some(_) => "no kind".to_string(),
    }
}

/// A group that is played.
struct Played<'a> {
    calls: &'a mut Calls,
    met: &'a mut Met,
    n: u8,
    transactions: Vec<Row>,
}

impl Played<'_> {
    fn any_box(&mut self) -> u8 {
        self.calls.dice.below(u64::from(self.n)) as u8
    }

    /// A message that a box may well get, or now and then none.
    fn message_to(&mut self, box_number: u8) -> Vec<u8> {
        let table = self.calls.table(box_number).to_vec();
        let dice = &mut self.calls.dice;
        let message = messages::any(dice, &table, &self.transactions);
        if dice.in_a_hundred(15) {
            return messages::no_message(dice, &message);
        }
        message
    }

    fn arrives(&mut self, lengths: (usize, usize), box_number: u8, message: &[u8]) -> u8 {
        let number = self.calls.arrive(lengths, box_number, message);
        self.met.count(&kind_of(message), number);
        let reply = self.calls.reply.held();
        if number == 0 && message[0] == 1 {
            self.met.count("the state after message 1", reply[3]);
        }
        if number == 0 && message[0] == 7 && reply[8..16] != [0; 8] {
            self.met.count("a write that is read", number);
        }
        number
    }

    /// In buffers that are long enough.
    fn arrives_at(&mut self, box_number: u8, message: &[u8]) -> u8 {
        let tables = self.calls.room_for(usize::from(self.n));
        let reply = self.calls.dice.one_of(&REPLIES);
        self.arrives((tables, reply), box_number, message)
    }

    fn any_message(&mut self) {
        let box_number = self.any_box();
        let message = self.message_to(box_number);
        self.arrives_at(box_number, &message);
    }

    /// Number 1, whichever buffer it is that has not enough bytes.
    fn too_short(&mut self) {
        let (n, box_number) = (usize::from(self.n), self.any_box());
        let message = self.message_to(box_number);
        let reply = self.calls.dice.one_of(&REPLIES);
        let short_reply = self.calls.dice.one_of(&SHORT_REPLIES);
        let beyond = self.calls.dice.one_of(&[self.n, self.n + 1, 128, 255]);
        let within = [1, 24, self.calls.image(box_number).len(), TABLE_BYTES - 1];
        let inside = TABLE_BYTES * usize::from(box_number) + self.calls.dice.one_of(&within);
        let all = self.calls.room_for(n);
        for (case, lengths, box_number) in [
            ("a reply buffer too short", (all, short_reply), box_number),
            ("a box beyond the lent buffer", (all, reply), beyond),
            (
                "a lent buffer that ends inside the box's",
                (inside, reply),
                box_number,
            ),
        ] {
            let number = self.arrives(lengths, box_number, &message);
            self.met.count(case, number);
        }
    }

    /// Number 2 from a box whose table breaks a rule, and from bytes that never were a table. The box beside it answers as
    /// ever.
    fn damaged(&mut self) {
        let box_number = self.any_box();
        let message = self.message_to(box_number);
        let image = self.calls.image(box_number).to_vec();
        let mut spoiled = image.clone();
        damage::spoil(&mut self.calls.dice, &mut spoiled);
        self.calls.hold(box_number, &spoiled);
        let number = self.arrives_at(box_number, &message);
        self.met.count("a damaged table", number);
        let beside = (box_number + 1) % self.n;
        let promised = number_at(self.calls.table(beside), 12);
        let number = self.arrives_at(beside, &make::change_view(promised + 1));
        self.met.count("beside a damaged table", number);
        self.calls.hold(box_number, &image);
        let room = self.calls.room_for(usize::from(self.n) + 1);
        let number = self.arrives((room, 24), self.n, &message);
        self.met.count("no table", number);
    }

    /// A box is who its table says, whosever place that stands in: so says its reply, and message 6 keeps that number.
    fn of_another_box(&mut self) {
        let box_number = self.any_box();
        let image = self.calls.image(box_number).to_vec();
        let (view, mut other) = (1 + number_at(&image, 12), image.clone());
        other[1] = (box_number + 1) % self.n;
        self.calls.hold(box_number, &other);
        let start = make::start_view(view, &messages::beginning(self.n, view, Vec::new()));
        for message in [make::change_view(view), start] {
            let number = self.arrives_at(box_number, &message);
            self.met.count("the table of another box", number);
        }
        self.calls.hold(box_number, &image);
    }

    /// f+1 boxes promise a view, their tables are merged, and most boxes start the view.
    fn changes_view(&mut self) {
        let mut boxes: Vec<u8> = (0..self.n).collect();
        let promised = boxes.iter().map(|b| number_at(self.calls.table(*b), 12));
        let view = 1 + promised.max().expect("a box");
        self.calls.dice.shuffle(&mut boxes);
        boxes.truncate(usize::from(self.n / 2 + 1));
        for box_number in &boxes {
            assert_eq!(self.arrives_at(*box_number, &make::change_view(view)), 0);
        }
        let lengths = Lengths {
            tables: self.calls.room_for(usize::from(self.n)),
            run: self.calls.room_for(boxes.len()),
            out: self.calls.room_for(1),
        };
        let number = self.calls.merge_boxes(lengths, &boxes, view);
        self.met.count("a merge", number);
        if number == 0 {
            let start = make::start_view(view, self.calls.merged());
            for box_number in 0..self.n {
                if self.calls.dice.in_a_hundred(80) {
                    assert_eq!(self.arrives_at(box_number, &start), 0);
                }
            }
        }
    }

    fn step(&mut self) {
        match self.calls.dice.index(30) {
            0 | 1 => self.changes_view(),
            2 => self.too_short(),
            3 => self.damaged(),
            4 => self.of_another_box(),
            _ => self.any_message(),
        }
    }
}

/// A group from its fresh tables through so many steps.
fn history(calls: &mut Calls, met: &mut Met, n: u8, steps: usize) {
    // Otherwise over the tables of the group before.
    if calls.dice.in_a_hundred(50) {
        calls.tables.make_dirty();
    }
    let room = calls.room_for(usize::from(n));
    assert_eq!(calls.start_fresh(n, room), 0);
    let transactions = transactions::some(&mut calls.dice);
    let mut played = Played {
        calls,
        met,
        n,
        transactions,
    };
    (0..steps).for_each(|_| played.step());
}

/// Boxes start a view with the longest rows, and are told of two new stamps and of a held one. Where each table of a merge
/// may add a row, the first stamp is taken, and no other. With 512 rows the image ends with the last byte of the box's table
/// buffer, the next box's begins right there, and no stamp is taken.
fn with_the_longest_rows(calls: &mut Calls, met: &mut Met, n: u8) {
    let room = TABLE_BYTES * usize::from(n);
    for (case, rows) in [
        ("a table with room for one row", room_for_one_row(n)),
        ("a table to the last byte", MOST_ROWS),
    ] {
        let mut table = random::full_table(&mut calls.dice, rows + 2);
        table.n = n;
        let [one, other] = [rows + 2, rows + 1].map(|rows| {
            let place = calls.dice.index(rows);
            table.rows.remove(place)
        });
        let start = make::start_view(1, &make::settled(&table.image(), 1));
        let held = &table.rows[calls.dice.index(rows)];
        assert_eq!(calls.start_fresh(n, room), 0);
        for box_number in 0..n {
            assert_eq!(calls.arrive((room, 24), box_number, &start), 0);
            for message in [
                make::propose_prepare(&one),
                make::propose_outcome(&other, 1),
                make::propose_prepare(held),
            ] {
                let number = calls.arrive((room, 24), box_number, &message);
                met.count(case, number);
                met.count(&kind_of(&message), number);
            }
        }
    }
}

/// So many start rows leave one for each table of a merge: of three boxes, 510 leave two.
fn room_for_one_row(n: u8) -> usize {
    MOST_ROWS - tables_of_a_merge(n)
}

fn many_histories(calls: &mut Calls, met: &mut Met, n: u8) {
    for turn in 0..120 {
        history(calls, met, n, 40 + turn);
    }
    with_the_longest_rows(calls, met, n);
    with_the_longest_rows(calls, met, n);
}

#[test]
fn messages_arrive_as_by_the_second_program() {
    let met = in_every_group(many_histories, LEAST_CALLS);
    met.assert_all(&CASES, 20);
}
