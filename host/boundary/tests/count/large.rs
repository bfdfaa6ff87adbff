//! Lists of many replies: more than any group has, and as many as a number of one byte or of two would lose.

use crate::lent::Lent;
use samples::replies::{self, laid};
use samples::Record;

/// How many replies, beside those of a group: about the ends of a byte and of two, and 65,536 bytes, as records and as 15
/// bytes each.
const LENGTHS: [usize; 14] = [
    8, 9, 15, 16, 31, 100, 255, 256, 257, 4_096, 4_368, 4_369, 4_370, 65_536,
];

/// Lists as long as these and a little longer, so that cut to one byte or two they would be those of a group.
pub fn lengths(lent: &mut Lent) {
    for turn in 0..6 {
        for n in [3, 5, 7, 8, 255] {
            for length in LENGTHS {
                let most = if length > 300 {
                    1
                } else {
                    usize::from(n.min(7))
                };
                for more in 0..=most {
                    in_every_way(lent, n, length + more, turn);
                }
            }
        }
        (0..3).for_each(|_| past_two_bytes(lent));
    }
}

/// Lists of every length from the first that no group has up to some hundreds.
pub fn every_length(lent: &mut Lent) {
    for length in 8..=600 {
        for (turn, n) in (0..).zip([3, 5, 7]) {
            in_every_way(lent, n, length, turn);
        }
    }
}

/// A list by the rules, and behind it as many copies of its boxes as a number of two bytes would lose.
fn past_two_bytes(lent: &mut Lent) {
    let (n, records) = loop {
        let (n, records) = replies::some(&mut lent.dice);
        if records.len() == usize::from(n) {
            break (n, records);
        }
    };
    let many = records.iter().cycle().take(65_536 + records.len());
    let many: Vec<Record> = many.copied().collect();
    assert_eq!(lent.ask_for(n, &many), 3);
}

/// So many replies in one view that all agree, or of which one is final: of boxes that rise beyond all groups, of the
/// group's over and over, of the group's with its last one or with one outside many times behind them.
fn in_every_way(lent: &mut Lent, n: u8, length: usize, turn: u8) {
    let group = usize::from(n);
    let boxes: [fn(usize, usize) -> usize; 4] = [
        |place, _| place,
        |place, group| place % group,
        |place, group| place.min(group - 1),
        |place, group| place.min(group),
    ];
    for box_of in boxes {
        let record = |place: usize| Record {
            box_number: box_of(place, group) as u8,
            view: 6,
            result: [(1, 0), (2, 0), (4, 7)][usize::from(turn % 3)],
            is_final: u8::from(place == 1 && turn % 2 == 1),
        };
        let records: Vec<Record> = (0..length).map(record).collect();
        assert_eq!(lent.ask(n, &laid(&records)), 3, "{} replies", length);
    }
}
