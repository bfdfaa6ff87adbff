//! Long sequences of messages to one box, over few registers and few stamps, so that clashes, held rows, outcomes and
//! changes of view are frequent.

use crate::lent::Lent;
use samples::{next, transactions, Table};

/// The fresh table of a box, and then so many messages.
pub fn history(lent: &mut Lent, length: usize) {
    let n = lent.dice.one_of(&[3, 5, 7]);
    let fresh = Table {
        box_number: lent.dice.below(n) as u8,
        n: n as u8,
        mode: 0,
        view: 0,
        promised: 0,
        start_rows: 0,
        rows: Vec::new(),
    };
    lent.hold(&fresh.image());
    let transactions = transactions::some(&mut lent.dice);
    for _ in 0..length {
        let image = lent.image().to_vec();
        let message = next::message(&mut lent.dice, &image, &transactions);
        lent.ask(&message);
    }
}
