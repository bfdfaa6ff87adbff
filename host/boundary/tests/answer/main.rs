//! A box's answers against the second program: number, rows compared, table and reply, to the byte, in more than a
//! million calls; and the call that answers with the number alone against the one that answers with both.

mod buffers;
mod compared;
mod damaged;
mod histories;
mod large;
mod lent;
mod refusals;
mod room;
mod shares;
mod starts;

use lent::Lent;
use samples::TABLE_BYTES;
use shares::Shares;
use std::io::{self, Write};

/// So many calls at least, of all parts together.
const LEAST_CALLS: u64 = 1_000_000;
/// So often at least each kind is answered with each number that it can get.
const LEAST_OF_A_PAIR: u64 = 100;

/// The parts, each with buffers and dice of its own.
const PARTS: [fn(&mut Lent); 12] = [
    histories,
    histories,
    histories,
    histories,
    refusals::all_sets,
    starts::conditions,
    starts::large,
    starts::damaged,
    damaged::tables,
    damaged::messages_spoiled,
    large::tables,
    buffers::lengths,
];

fn histories(lent: &mut Lent) {
    (0..6_000).for_each(|turn| histories::history(lent, 20 + turn % 80));
}

/// All parts, side by side.
fn all_parts() -> Shares {
    let asked = |seed: u64, part: fn(&mut Lent)| {
        let mut lent = Lent::seeded(seed);
        part(&mut lent);
        lent.shares
    };
    samples::together(&PARTS, asked, Shares::add)
}

#[test]
fn a_million_calls_are_answered_as_by_the_second_program() {
    let shares = all_parts();
    // Written past the test harness, which would keep it to itself: the shares are for whoever reads the gate's output.
    writeln!(io::stdout(), "\n{}", shares).expect("a place to print to");
    shares.assert_all_met(LEAST_OF_A_PAIR);
    assert!(shares.calls() >= LEAST_CALLS, "{} calls", shares.calls());
}

/// "After message 1 with stamp 65,537 and one write, register 5, value 7: rows 1, length 57; one row with offset 48, counts
/// 0 and 1, prepare 1, outcome 0; body 05 00 00 00 00 00 00 00 07."
#[test]
fn the_worked_message_makes_the_table_of_the_paper() {
    let message = [1, 0, 0, 0, 0, 0, 1, 0, 1, 0, 1, 5, 0, 0, 0, 0, 0, 0, 0, 7];
    let image: [u8; 57] = [
        0x01, 0x00, 0x03, 0x00, 0x00, 0x00, 0x00, 0x01, 0x00, 0x00, 0x00, 0x00, 0x00, 0x00, 0x00,
        0x00, 0x00, 0x00, 0x00, 0x00, 0x00, 0x00, 0x00, 0x39, 0x00, 0x00, 0x00, 0x00, 0x00, 0x01,
        0x00, 0x01, 0x00, 0x00, 0x00, 0x00, 0x00, 0x00, 0x00, 0x00, 0x00, 0x00, 0x00, 0x30, 0x00,
        0x01, 0x01, 0x00, 0x05, 0x00, 0x00, 0x00, 0x00, 0x00, 0x00, 0x00, 0x07,
    ];
    let answered: [u8; 24] = [
        0, 1, 0, 1, 0, 0, 0, 0, 0, 0, 0, 0, 0, 1, 0, 1, 0, 0, 0, 0, 0, 0, 0, 0,
    ];
    let mut table = vec![0xee; TABLE_BYTES];
    let mut reply = [0xee; 30];
    assert_eq!(boundary::fresh(&mut table, 3, 0), 0);
    // The second time the prepare that is held is answered, and nothing changes. Then there is a row to compare.
    for compared in [0, 1] {
        let word = boundary::answer_word(&mut table, &message, &mut reply);
        assert_eq!(word, compared << 16);
        assert_eq!(table[..57], image);
        assert_eq!(table[57..], [0xee; TABLE_BYTES - 57]);
        assert_eq!(reply[..24], answered);
        assert_eq!(reply[24..], [0xee; 6]);
    }
}

/// "Refusals keep the table [..]; the reply has the number in byte 0 and 23 zero bytes, except number 1, which writes
/// nothing."
#[test]
fn refusals_of_the_worked_table_are_those_of_the_paper() {
    let mut table = vec![0xee; TABLE_BYTES];
    assert_eq!(boundary::fresh(&mut table, 3, 0), 0);
    let before = table.clone();
    for (message, number) in [(&[][..], 3), (&[8], 3), (&[5, 0, 0, 0, 0], 10)] {
        let mut reply = [0xee; 25];
        let mut expected = [0; 25];
        (expected[0], expected[24]) = (number, 0xee);
        assert_eq!(boundary::answer(&mut table, message, &mut reply), number);
        assert_eq!(reply, expected);
        let mut reply = [0xee; 23];
        assert_eq!(boundary::answer(&mut table, message, &mut reply), 1);
        assert_eq!(reply, [0xee; 23]);
        assert!(table == before, "a refusal wrote: {:?}", message);
    }
}
