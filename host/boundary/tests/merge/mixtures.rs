//! Tables of few transactions over few registers, agreed, open and final in every mixture, so that checks clash often.

use crate::lent::Lent;
use crate::started;
use samples::mixtures;
use samples::runs::Run;

/// Many runs, some of them in several orders.
pub fn many(lent: &mut Lent) {
    for turn in 0..60_000 {
        let run = mixtures::run(&mut lent.dice);
        let number = lent.ask(&run.bytes(), run.view);
        if turn % 8 == 0 {
            in_other_orders(lent, &run, number);
        }
        if turn % 8 == 1 && number == 0 {
            started::by_a_box(lent, &run);
        }
    }
}

/// "laid end to end in one lent buffer": in which order does not matter.
fn in_other_orders(lent: &mut Lent, run: &Run, number: u8) {
    let merged = |lent: &Lent| (number == 0).then(|| lent.image().to_vec());
    let image = merged(lent);
    for _ in 0..2 {
        let other = run.shuffled(&mut lent.dice);
        assert_eq!(lent.ask(&other.bytes(), run.view), number);
        let same = merged(lent) == image;
        assert!(same, "another order, another image: {:?}", run);
    }
}
