//! The expert held to the second program, byte for byte, over thousands of cases of every call; and sides with one fault
//! each, which have to be noticed by the same cases.

use crate::{Side, EXPERT};
use samples::replies::{self, laid};
use samples::runs::{self, Run};
use samples::{damage, kinds, message, mixtures, next, random, room, transactions};
use samples::{Dice, Table, TABLE_BYTES};
use std::collections::BTreeSet;

/// What was met: the call, what it was about (a kind of message, or an n), and the number.
type Met = BTreeSet<(&'static str, u8, u8)>;

/// A side in its trial: the dice, and what was met so far. The first difference ends it.
struct Trial {
    side: Side,
    dice: Dice,
    met: Met,
}

type Tried = Result<(), String>;

/// Cases of one call.
type Cases = fn(&mut Trial) -> Tried;

fn tried(side: Side, cases: Cases) -> Result<Met, String> {
    let mut trial = Trial {
        side,
        dice: Dice::seeded(7),
        met: Met::new(),
    };
    cases(&mut trial).map(|()| trial.met)
}

impl Trial {
    fn judge(&mut self, kind: &str, bytes: &[u8]) -> Tried {
        let (own, other) = ((self.side.valid_answer)(bytes), reference::valid(bytes));
        self.met.insert(("valid", 0, other as u8));
        if own != other {
            return Err(format!("{}: {} and not {}", kind, own, other));
        }
        Ok(())
    }

    /// Answers in a copy of the buffer, and leaves there what the second program leaves.
    fn answer(&mut self, table: &mut Vec<u8>, message: &[u8], reply_length: usize) -> Tried {
        let mut own = (table.clone(), vec![0xa5; reply_length]);
        let mut reply = own.1.clone();
        let own_number = (self.side.answer)(&mut own.0, message, &mut own.1);
        let number = reference::answer(table, message, &mut reply);
        let kind = message.first().copied().unwrap_or(0);
        self.met.insert(("answer", kind, number));
        if (own_number, &own.0, &own.1) != (number, table, &reply) {
            return Err(format!("{}, not {}: {:?}", own_number, number, message));
        }
        Ok(())
    }

    fn merge(&mut self, run: &[u8], view: u32, length: usize) -> Tried {
        let mut own = self.dice.bytes(16);
        own.resize(length, 0x5a);
        let mut out = own.clone();
        let own_number = (self.side.merge)(run, view, &mut own);
        let number = reference::merge(run, view, &mut out);
        let n = run.get(2).copied().unwrap_or(0);
        self.met.insert(("merge", n, number));
        if (own_number, &own) != (number, &out) {
            return Err(format!("{}, not {}, for {}", own_number, number, view));
        }
        Ok(())
    }

    /// Of bytes, and of the records that stand for the same replies, if they are whole.
    fn count(&mut self, n: u8, bytes: &[u8]) -> Tried {
        let answer = reference::count(n, bytes);
        let answers = [
            Some((self.side.count)(n, bytes)),
            self.side
                .count_records
                .filter(|_| bytes.len() % replies::RECORD_LENGTH == 0)
                .map(|count| count(n, &records(bytes))),
        ];
        self.met.insert(("count", n, answer as u8));
        if answers.into_iter().flatten().any(|own| own != answer) {
            return Err(format!("{:x?}, not {:x}: {:?}", answers, answer, bytes));
        }
        Ok(())
    }
}

fn records(bytes: &[u8]) -> Vec<boundary::Record> {
    let record = |bytes: &[u8]| boundary::Record {
        box_number: bytes[0],
        result: bytes[5],
        is_final: bytes[14],
        view: u32::from_be_bytes(bytes[1..5].try_into().expect("four bytes")),
        retry: u64::from_be_bytes(bytes[6..14].try_into().expect("eight bytes")),
    };
    let bytes = bytes.chunks_exact(replies::RECORD_LENGTH);
    bytes.map(record).collect()
}

/// Bytes with one changed, taken out or put in, or with the end cut off.
fn bent(dice: &mut Dice, bytes: &[u8]) -> Vec<u8> {
    let mut bytes = bytes.to_vec();
    if bytes.is_empty() {
        return dice.bytes(1);
    }
    let place = dice.index(bytes.len());
    match dice.index(6) {
        0 => drop(bytes.remove(place)),
        1 => bytes.insert(place, dice.byte()),
        2 => bytes.truncate(place),
        3 => bytes[place] ^= 1 << dice.below(8),
        4 => bytes[place] = bytes[place].wrapping_add(1),
        _ => bytes[place] = dice.one_of(&[0, 1, 4, 5, 8, 63, 64, 255]),
    }
    bytes
}

/// Images and bent images of many kinds.
fn images(trial: &mut Trial) -> Tried {
    let mut dice = Dice::seeded(11);
    let mut tried = Ok(());
    let mut judge = |kind: &str, bytes: &[u8]| {
        if tried.is_ok() {
            tried = trial.judge(kind, bytes);
        }
    };
    for place in 0..12 {
        let table = random::table(&mut dice, 3 + place % 6);
        damage::all(&mut dice, &table, &mut judge);
        damage::cut_and_followed(&mut dice, &table, &mut judge);
    }
    let table = random::table(&mut dice, 3);
    damage::every_mode(&table, &mut judge);
    damage::every_code(&table, 1, &mut judge);
    damage::every_box(&table, &mut judge);
    damage::rows_about_the_limit(&mut dice, &mut judge);
    let full = random::full_table(&mut dice, 40);
    for _ in 0..4_000 {
        let bytes = bent(&mut dice, &full.image());
        judge("a full table bent", &bytes);
    }
    tried
}

/// A buffer that begins with an image, and has any bytes behind it.
fn buffer(dice: &mut Dice, image: &[u8]) -> Vec<u8> {
    let mut buffer = [image, &dice.bytes(8)].concat();
    buffer.resize(TABLE_BYTES.max(buffer.len()) + dice.index(3), 0x5a);
    buffer
}

/// Messages of every kind about random tables, some of either bent, or in buffers that are too small.
fn single_messages(trial: &mut Trial) -> Tried {
    for turn in 0..1_200 {
        let rows = 1 + trial.dice.index(9);
        let table = random::table(&mut trial.dice, rows);
        for message in kinds::messages(&mut trial.dice, &table) {
            let dice = &mut trial.dice;
            let image = match turn % 6 {
                0 => bent(dice, &table.image()),
                _ => table.image(),
            };
            let message = match turn % 4 {
                0 => bent(dice, &message),
                1 if !message.is_empty() && (1..=7).contains(&message[0]) => {
                    message::spoiled(dice, &message)
                }
                _ => message,
            };
            let mut table = buffer(dice, &image);
            let reply = dice.one_of(&[24, 24, 25, 40]);
            trial.answer(&mut table, &message, reply)?;
            if turn % 16 == 0 {
                trial.answer(&mut table, &message, 23)?;
                table.truncate(TABLE_BYTES - 1);
                trial.answer(&mut table, &message, 24)?;
            }
        }
    }
    Ok(())
}

/// Many messages to one box, over few transactions that clash often.
fn histories(trial: &mut Trial) -> Tried {
    for _ in 0..120 {
        let n = trial.dice.one_of(&[3, 5, 7]);
        let mut fresh = Table::in_view_0(Vec::new());
        (fresh.n, fresh.box_number) = (n, trial.dice.below(u64::from(n)) as u8);
        let mut table = buffer(&mut trial.dice, &fresh.image());
        let transactions = transactions::some(&mut trial.dice);
        for _ in 0..80 {
            let length = u32::from_be_bytes(table[20..24].try_into().expect("four bytes"));
            let image = table[..length as usize].to_vec();
            let message = next::message(&mut trial.dice, &image, &transactions);
            trial.answer(&mut table, &message, 24)?;
        }
    }
    Ok(())
}

/// New stamps about the last row that there is room for.
fn room_for_the_last(trial: &mut Trial) -> Tried {
    for (n, start_rows, rows) in room::edges() {
        let (table, new) = room::table(&mut trial.dice, n, start_rows, rows);
        for message in [
            message::propose_prepare(&new),
            message::propose_outcome(&new, 1),
        ] {
            let mut table = buffer(&mut trial.dice, &table.image());
            trial.answer(&mut table, &message, 24)?;
        }
    }
    Ok(())
}

fn messages(trial: &mut Trial) -> Tried {
    single_messages(trial)?;
    histories(trial)?;
    room_for_the_last(trial)
}

/// The run with something about it that may make its tables wrong.
fn wrong(dice: &mut Dice, mut run: Run) -> Run {
    let place = dice.index(run.tables.len());
    let other = run.tables[dice.index(run.tables.len())].clone();
    let table = &mut run.tables[place];
    match dice.index(7) {
        0 => run.tables.push(other),
        1 => drop(run.tables.remove(place)),
        2 => table.box_number = other.box_number,
        3 => table.n = dice.one_of(&[3, 5, 7]),
        4 => (table.mode, table.promised) = (0, table.view),
        5 => table.promised = table.promised.saturating_add(1),
        _ => run.view = dice.one_of(&[0, 1, run.view.wrapping_add(1), run.view - 1]),
    }
    run
}

/// Tables that hold so many stamps together, each in one or in several of them.
fn many_stamps(dice: &mut Dice, n: u8, stamps: usize) -> Run {
    let mut run = runs::quorum_of(dice, n);
    let rows = random::table(dice, stamps).rows;
    let tables = run.tables.len();
    for index in 0..tables {
        let one_in = dice.one_of(&[2, 50]);
        let is_held =
            |place: usize, dice: &mut Dice| place % tables == index || dice.below(one_in) == 0;
        let mut own = rows.clone();
        let mut place = 0;
        own.retain(|_| {
            place += 1;
            is_held(place - 1, dice)
        });
        own.truncate(samples::MOST_ROWS);
        run.fill(dice, index, own);
    }
    run
}

/// Runs of few transactions that clash often, as they are, in another order, wrong or bent; and runs of very many stamps.
fn merges(trial: &mut Trial) -> Tried {
    for turn in 0..4_000 {
        let run = mixtures::run(&mut trial.dice);
        trial.merge(&run.bytes(), run.view, TABLE_BYTES + turn % 2)?;
        let shuffled = run.shuffled(&mut trial.dice);
        trial.merge(&shuffled.bytes(), run.view, TABLE_BYTES)?;
        let spoilt = bent(&mut trial.dice, &run.bytes());
        trial.merge(&spoilt, run.view, TABLE_BYTES)?;
        let wrong = wrong(&mut trial.dice, run);
        trial.merge(&wrong.bytes(), wrong.view, TABLE_BYTES)?;
        if turn % 100 == 0 {
            trial.merge(&wrong.bytes(), wrong.view, TABLE_BYTES - 1)?;
            trial.merge(&[], wrong.view, TABLE_BYTES)?;
        }
    }
    for n in room::GROUPS {
        for stamps in [200, 500, 511, 512, 513, 700, 1_000] {
            let run = many_stamps(&mut trial.dice, n, stamps);
            trial.merge(&run.bytes(), run.view, TABLE_BYTES)?;
        }
    }
    Ok(())
}

/// Replies by the rules, with more of them, with another n, or bent.
fn counts(trial: &mut Trial) -> Tried {
    for _ in 0..20_000 {
        let dice = &mut trial.dice;
        let (n, mut records) = replies::some(dice);
        let bytes = laid(&records);
        let spoilt = bent(dice, &bytes);
        let any = dice.byte();
        let other_n = dice.one_of(&[3, 5, 7, 0, 4, 6, 8, any]);
        let (_, more) = replies::some(dice);
        records.extend(more);
        trial.count(n, &bytes)?;
        trial.count(n, &spoilt)?;
        trial.count(other_n, &bytes)?;
        trial.count(n, &laid(&records))?;
    }
    trial.count(3, &[])
}

/// The results that boxes of a group of seven gave, each of few, in every mixture of all of them.
fn every_count(trial: &mut Trial) -> Tried {
    let results = [(1, 0), (2, 0), (3, 0), (4, 1), (4, 2)];
    let n = trial.dice.one_of(&[5, 7]);
    for mixture in 0..5_usize.pow(u32::from(n)) {
        let record = |box_number: u8| replies::Record {
            box_number,
            view: 3,
            result: results[mixture / 5_usize.pow(u32::from(box_number)) % 5],
            is_final: u8::from(mixture % 11 == 0 && box_number == 1),
        };
        let records: Vec<_> = (0..n).map(record).collect();
        trial.count(n, &laid(&records))?;
    }
    Ok(())
}

fn all_counts(trial: &mut Trial) -> Tried {
    counts(trial)?;
    every_count(trial)
}

/// The numbers that were met for a call, and for what it was about.
fn numbers(met: &Met, call: &str, about: u8) -> Vec<u8> {
    let own = met
        .iter()
        .filter(|met| met.0 == call && met.1 == about)
        .map(|met| met.2);
    own.collect()
}

#[test]
fn the_expert_judges_as_the_second_program() {
    let met = tried(EXPERT, images).expect("the same answers");
    assert_eq!(numbers(&met, "valid", 0), [0, 2]);
}

#[test]
fn the_expert_answers_as_the_second_program() {
    let met = tried(EXPERT, messages).expect("the same answers");
    for (kind, expected) in kinds::NUMBERS.iter().enumerate() {
        assert_eq!(numbers(&met, "answer", kind as u8), *expected, "{}", kind);
    }
}

#[test]
fn the_expert_merges_as_the_second_program() {
    let met = tried(EXPERT, merges).expect("the same answers");
    for n in room::GROUPS {
        let all = [0, 1, 2, 5, 6, 7, 11];
        assert_eq!(numbers(&met, "merge", n), all, "{}", n);
    }
}

#[test]
fn the_expert_counts_as_the_second_program() {
    let met = tried(EXPERT, all_counts).expect("the same answers");
    for n in room::GROUPS {
        assert_eq!(numbers(&met, "count", n), [0, 3, 6], "{}", n);
    }
}

/// Sides that are the expert but for one fault, which few of the cases show.
mod faults {
    use crate::expert::count::count_records;
    use crate::{Side, EXPERT};
    use boundary::Record;

    pub const JUDGES: Side = Side {
        valid_answer: |bytes| match (EXPERT.valid_answer)(bytes) {
            // It takes no outcome 4 for the last row.
            answer if answer > 2 && bytes[7] == 3 && bytes[24 + 2 * 24 + 23] == 4 => 2,
            answer => answer,
        },
        ..EXPERT
    };

    pub const ANSWERS: Side = Side {
        answer: |table, message, reply| {
            let number = (EXPERT.answer)(table, message, reply);
            // A RETRY is answered with another stamp than the one that is held.
            if number == 0 && reply[1] == 1 && reply[3] == 4 {
                reply[23] ^= 1;
            }
            number
        },
        ..EXPERT
    };

    pub const MERGES: Side = Side {
        merge: |run, view, out| {
            let number = (EXPERT.merge)(run, view, out);
            // The last row is never ABSTAIN.
            let last = usize::from(u16::from_be_bytes([out[6], out[7]])) * 24;
            if number == 0 && last > 0 && out[last + 22] == 7 {
                out[last + 22] = 5;
            }
            number
        },
        ..EXPERT
    };

    pub const COUNTS: Side = Side {
        count: |n, replies| match (EXPERT.count)(n, replies) {
            // It waits for one reply more.
            _ if n == 7 && replies.len() == 4 * 15 && replies[5] == 3 => 0,
            answer => answer,
        },
        ..EXPERT
    };

    pub const COUNTS_RECORDS: Side = Side {
        count_records: Some(|n, records| {
            // It takes a record that is neither final nor not for one that is not.
            let taken = |record: &Record| Record {
                is_final: if record.is_final == 2 {
                    0
                } else {
                    record.is_final
                },
                ..*record
            };
            let taken: Vec<Record> = records.iter().map(taken).collect();
            count_records(n, &taken)
        }),
        ..EXPERT
    };
}

#[test]
fn a_side_with_one_fault_is_noticed() {
    let faults: [(Side, Cases); 5] = [
        (faults::JUDGES, images),
        (faults::ANSWERS, messages),
        (faults::MERGES, merges),
        (faults::COUNTS, all_counts),
        (faults::COUNTS_RECORDS, all_counts),
    ];
    for (place, (side, cases)) in faults.into_iter().enumerate() {
        assert!(tried(side, cases).is_err(), "fault {} was missed", place);
    }
}
