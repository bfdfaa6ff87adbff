//! Random messages, good and damaged, to the boxes of a group, with merges between: what holds of every call. The numbers
//! are drawn from fixed seeds, so every run is the same. `TestBox` and `common::merge` hold each refusal to changing
//! nothing, and each call to the bytes that it may write.

mod common;
use common::dice::Dice;
use common::{
    change, finalise, finish, outcome, propose, read, row, start, RawRow, TestBox, BUFFER, DIRT,
};
use reference::{Message, Mode, Table};

type Access = Vec<(u8, u64)>;

/// Accesses to some of the registers 0 to 3 and 63, with numbers below a limit.
fn accesses(dice: &mut Dice, limit: u64) -> Access {
    let registers: Vec<u8> = [0, 1, 2, 3, 63]
        .iter()
        .copied()
        .filter(|_| dice.in_a_hundred(30))
        .collect();
    let kept = registers.iter().take(4);
    kept.map(|register| (*register, dice.below(limit)))
        .collect()
}

/// The body that a stamp has nearly everywhere.
fn body_of(stamp: u64, salt: u64) -> (Access, Access) {
    let mut dice = Dice((stamp * 2 + 1).wrapping_mul(0x9E37_79B9_7F4A_7C15) ^ salt);
    for _ in 0..8 {
        dice.next();
    }
    let reads = accesses(&mut dice, stamp);
    let mut writes = accesses(&mut dice, u64::MAX);
    if reads.is_empty() && writes.is_empty() {
        writes.push((5, stamp));
    }
    (reads, writes)
}

/// A message that a box holding this table may well accept.
fn likely_message(dice: &mut Dice, table: &Table, stamps: u64) -> Vec<u8> {
    let stamp = 1 + dice.below(stamps);
    let salt = u64::from(dice.in_a_hundred(2));
    let (reads, writes) = body_of(stamp, salt);
    let view = table.view + u32::from(dice.in_a_hundred(5));
    let code = 1 + ((stamp + u64::from(dice.in_a_hundred(3))) % 2) as u8;
    match dice.below(20) {
        0..=7 => propose(stamp, &reads, &writes),
        8..=10 => {
            let result = 1 + ((stamp / 2 + u64::from(dice.in_a_hundred(3))) % 4) as u8;
            finalise(stamp, view, result, if result == 4 { 50 } else { 0 })
        }
        11..=13 => outcome(stamp, code, &reads, &writes),
        14..=16 => finish(stamp, view, code),
        17 if dice.in_a_hundred(20) => change(table.view + dice.below(4) as u32),
        18 if dice.in_a_hundred(20) => start_message(dice, table),
        _ => read(stamp, dice.below(5) as u8),
    }
}

/// A start view made of the box's own rows, mostly settled as the rules of message 6 ask.
fn start_message(dice: &mut Dice, table: &Table) -> Vec<u8> {
    let view = table.promised() + dice.below(3) as u32;
    let mut rows = table.rows.clone();
    if dice.in_a_hundred(80) {
        rows.values_mut().for_each(|row| *row = row.settled());
    }
    let box_number = (view % u32::from(table.n)) as u8;
    start(
        view,
        &Table::beginning(table.n, box_number, view, rows).image(),
    )
}

/// The same bytes with one changed, some cut off or some added.
fn damaged(dice: &mut Dice, mut bytes: Vec<u8>) -> Vec<u8> {
    let place = dice.below(bytes.len().max(1) as u64) as usize;
    match dice.below(4) {
        0 => bytes.truncate(place),
        1 => bytes.push(dice.next() as u8),
        2 => bytes.iter_mut().skip(place).take(1).for_each(|b| *b ^= 1),
        _ => {
            let byte = dice.next() as u8;
            bytes.iter_mut().skip(place).take(1).for_each(|b| *b = byte);
        }
    }
    bytes
}

/// The boxes of a group, and how often each number was met.
struct Play {
    dice: Dice,
    n: u8,
    stamps: u64,
    boxes: Vec<TestBox>,
    met: [u32; 12],
    merges: u32,
}

impl Play {
    fn new(seed: u64, n: u8, stamps: u64) -> Play {
        Play {
            dice: Dice(seed),
            n,
            stamps,
            boxes: (0..n).map(|b| TestBox::fresh(n, b)).collect(),
            met: [0; 12],
            merges: 0,
        }
    }

    fn met(&mut self, number: u8) {
        self.met[usize::from(number)] += 1;
    }

    /// Sends one message to one box: the buffer begins with an image before and after.
    fn message(&mut self) {
        let index = self.dice.below(u64::from(self.n)) as usize;
        let table = self.boxes[index].held();
        let mut message = likely_message(&mut self.dice, &table, self.stamps);
        if self.dice.in_a_hundred(15) {
            message = damaged(&mut self.dice, message);
        }
        let number = self.boxes[index].number(&message);
        let after = self.boxes[index].held();
        assert!(self.boxes[index].buffer.starts_with(&after.image()));
        assert_eq!((after.box_number, after.n), (index as u8, self.n));
        if let Some(parsed) = Message::parse(&message) {
            assert_eq!(parsed.bytes(), message);
        }
        self.met(number);
    }

    /// A message to a damaged copy of a table, which is either no table or another one.
    fn damage(&mut self) {
        let index = self.dice.below(u64::from(self.n)) as usize;
        let image = self.boxes[index].image().to_vec();
        let mut copy = TestBox::holding(&damaged(&mut self.dice, image));
        let table = self.boxes[index].held();
        let message = likely_message(&mut self.dice, &table, self.stamps);
        let number = copy.number(&message);
        assert_eq!(number == 2, Table::parse(&copy.buffer).is_none());
        self.met(number);
    }

    /// A call with a buffer that is too small by one.
    fn small(&mut self) {
        let mut buffer = self.boxes[0].buffer[..BUFFER - 1].to_vec();
        let mut reply = [DIRT; 24];
        let number = reference::answer(&mut buffer, &read(1, 1), &mut reply);
        assert_eq!(buffer, self.boxes[0].buffer[..BUFFER - 1]);
        assert_eq!(reply, [DIRT; 24]);
        self.met(number);
    }

    /// f+1 boxes change the view, their tables are merged, and some boxes start with the merged image.
    fn change_of_view(&mut self) {
        let view = 1 + self
            .boxes
            .iter()
            .map(|one| one.held().promised())
            .max()
            .unwrap_or(0);
        let first = self.dice.below(u64::from(self.n)) as usize;
        let quorum = usize::from(self.n / 2) + 1;
        let mut images = Vec::new();
        for index in (first..first + quorum).map(|index| index % usize::from(self.n)) {
            if self.dice.in_a_hundred(98) {
                self.boxes[index].done(&change(view));
            }
            images.push(self.boxes[index].image().to_vec());
        }
        let result = merged_in_any_order(&mut self.dice, &images, view);
        self.met(result.as_ref().err().copied().unwrap_or(0));
        let image = match result {
            Ok(table) => {
                assert_begins_a_view(&table, self.n, view);
                self.merges += 1;
                table.image()
            }
            // So that the group can go on: an empty table, as if all had been lost.
            Err(_) => common::beginning(self.n, view, &[]).image(),
        };
        for one in &mut self.boxes {
            if self.dice.in_a_hundred(80) {
                one.done(&start(view, &image));
            }
        }
    }

    fn run(&mut self, turns: u32) {
        for _ in 0..turns {
            match self.dice.below(100) {
                0 => self.change_of_view(),
                1..=5 => self.damage(),
                6 => self.small(),
                _ => self.message(),
            }
        }
    }
}

/// The merge of a run, which does not depend on the order of the images in it.
fn merged_in_any_order(dice: &mut Dice, images: &[Vec<u8>], view: u32) -> Result<Table, u8> {
    let result = common::merge(images, view);
    let mut order = images.to_vec();
    for _ in 0..images.len() {
        order.rotate_left(1);
        let other = dice.below(images.len() as u64) as usize;
        order.swap(0, other);
        assert_eq!(common::merge(&order, view), result);
    }
    result
}

fn assert_begins_a_view(table: &Table, n: u8, view: u32) {
    assert_eq!((table.mode, table.n, table.view), (Mode::Normal, n, view));
    assert_eq!(u32::from(table.box_number), view % u32::from(n));
    assert_eq!(table.start_rows, table.rows.len());
    for row in table.rows.values() {
        assert!(row.prepare.map_or(true, |held| held.is_final));
        assert!(row.outcome.map_or(true, |held| held.is_done));
    }
}

#[test]
fn whatever_is_sent_a_box_keeps_a_table_and_a_refusal_changes_nothing() {
    let mut met = [0; 12];
    let mut merges = 0;
    for (seed, n) in (1..=12).zip([3, 5, 7].iter().copied().cycle()) {
        let mut play = Play::new(seed * 0x1234_5677 + 1, n, 10 + 4 * seed);
        play.run(4_000);
        (0..12).for_each(|number| met[number] += play.met[number]);
        merges += play.merges;
    }
    // Every number but "full" was met, so nothing above held for want of a case.
    let often = |number: usize| met[number] > 20 || number == 7;
    assert!((0..12).all(often), "{:?}", met);
    assert!(merges > 100, "only {} merges were done", merges);
}

#[test]
fn boxes_that_fill_up_keep_their_tables_too() {
    let mut play = Play::new(77, 3, 40);
    let rows: Vec<RawRow> = (1_000..1_507)
        .map(|stamp| row(stamp, &[(2, 7)], &[(1, 1)], 1, 0))
        .collect();
    for (index, one) in (0..3).zip(&mut play.boxes) {
        *one = TestBox::holding(&common::normal(index, 3, 0, &rows).image());
    }
    play.run(500);
    assert!(play.met[0] > 20 && play.met[7] > 20, "{:?}", play.met);
}

#[test]
fn bytes_of_every_kind_are_answered_with_a_number_of_the_list() {
    let mut dice = Dice(99);
    for _ in 0..20_000 {
        let length = dice.below(80) as usize;
        let mut bytes: Vec<u8> = (0..length).map(|_| dice.below(6) as u8).collect();
        let counted = reference::count(3 + 2 * dice.below(3) as u8, &bytes);
        assert!([0, 3, 6].contains(&(counted & 0xff)));
        let number = TestBox::fresh(3, 1).number(&bytes);
        assert!([0, 3, 8, 9, 10].contains(&number));
        // The same behind a good beginning of a header.
        bytes.splice(..bytes.len().min(4), [1, 0, 3, dice.below(2) as u8]);
        let merged = common::merge_run(&bytes, dice.below(3) as u32);
        assert!(matches!(merged, Err(2) | Err(11)));
    }
}
