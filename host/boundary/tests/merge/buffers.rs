//! Outputs of every length about the limit, for runs that are merged and for runs that are refused.

use crate::lent::{Lent, LONG_ENOUGH, TOO_SHORT};
use crate::refusals;
use samples::{mixtures, TABLE_BYTES};

pub fn lengths(lent: &mut Lent) {
    for _ in 0..300 {
        let run = mixtures::run(&mut lent.dice);
        let mut wrong = run.clone();
        refusals::wrong(&mut lent.dice, &mut wrong);
        let cut = run.bytes()[1..].to_vec();
        let about = TABLE_BYTES - 4..TABLE_BYTES + 4;
        let lengths = about.chain(TOO_SHORT).chain(LONG_ENOUGH);
        for length in lengths {
            let runs = [(run.bytes(), run.view), (wrong.bytes(), wrong.view)];
            let others = [(cut.clone(), run.view), (Vec::new(), run.view)];
            for (bytes, view) in runs.iter().chain(&others) {
                let number = lent.ask_with(bytes, *view, length);
                assert_eq!(number == 1, length < TABLE_BYTES, "{}", length);
            }
        }
    }
}
