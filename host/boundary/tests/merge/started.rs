//! A done merge's image, sent as message 6 for its view to boxes of the group that have not gone further.

use crate::lent::Lent;
use samples::runs::Run;
use samples::{message, random, TABLE_BYTES};

/// Has a box with any table, normal in an earlier view or changing to at most this one, start the view of the last merge.
pub fn by_a_box(lent: &mut Lent, run: &Run) {
    let view = run.view;
    let merged = lent.image().to_vec();
    let dice = &mut lent.dice;
    let rows = dice.index(8);
    let mut own = random::table(dice, rows);
    own.n = run.tables[0].n;
    own.box_number = dice.below(u64::from(own.n)) as u8;
    own.view = dice.one_of(&[0, run.newest(), view - 1]);
    own.promised = dice.one_of(&[own.view, own.view + 1, view]);
    own.mode = u8::from(own.promised > own.view);
    let mut table = own.image();
    table.resize(TABLE_BYTES, 0);
    accepted(&mut table, view, &merged);
}

/// Message 6 is answered with number 0, and the box takes the image whole, keeping its own number.
pub fn accepted(table: &mut [u8], view: u32, merged: &[u8]) {
    let mut expected = merged.to_vec();
    expected[1] = table[1];
    let start = message::start_view(view, merged);
    let mut reply = [0; 24];
    let number = boundary::answer(table, &start, &mut reply);
    assert_eq!(number, 0, "view {} is not started: {:02x?}", view, merged);
    assert_eq!(table[..expected.len()], expected[..]);
}
