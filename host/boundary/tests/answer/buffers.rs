//! Buffers of every length about the limits, for messages of every kind.

use crate::lent::{Lent, REPLIES_TOO_SHORT, TABLES_LONG_ENOUGH, TABLES_TOO_SHORT};
use samples::message as make;
use samples::{random, TABLE_BYTES};

/// Messages of every kind to one table. They change it, so that most of them are refused when they come again.
fn messages(lent: &mut Lent) -> Vec<Vec<u8>> {
    let stamp = 1 + lent.dice.below(20);
    let row = random::row(&mut lent.dice, stamp, (1, 1));
    let view = lent.number_at(8);
    let image = make::settled(lent.image(), view + 1);
    let mut unknown = make::read(stamp, 0);
    unknown[0] = lent.dice.one_of(&[0, 8, 9, 128, 255]);
    vec![
        make::propose_prepare(&row),
        make::finalise_prepare(stamp, view, (1, 0)),
        make::propose_outcome(&row, 1),
        make::finalise_outcome(stamp, view, 1),
        make::change_view(view + 1),
        make::start_view(view + 1, &image),
        make::read(stamp, 0),
        unknown,
        Vec::new(),
    ]
}

/// A reply buffer of each length up to twice a reply's, then a table buffer of each length about its limit; every message in
/// every pair of buffers of which one is too short.
pub fn lengths(lent: &mut Lent) {
    for turn in 0..40 {
        let mut table = random::table(&mut lent.dice, turn % 6);
        (table.mode, table.view, table.promised) = (0, turn as u32, turn as u32);
        lent.hold(&table.image());
        let about = (0..=48).map(|reply| (TABLE_BYTES, reply));
        let about = about.chain((TABLE_BYTES - 4..TABLE_BYTES + 4).map(|table| (table, 24)));
        let long = TABLES_LONG_ENOUGH.iter();
        let short = long.chain(&TABLES_TOO_SHORT);
        let short = short.flat_map(|table| REPLIES_TOO_SHORT.map(|reply| (*table, reply)));
        for lengths in about.chain(short) {
            for message in messages(lent) {
                let number = lent.ask_with(lengths, &message);
                let too_short = lengths.0 < TABLE_BYTES || lengths.1 < 24;
                assert_eq!(number == 1, too_short, "{:?}", lengths);
            }
        }
    }
}
