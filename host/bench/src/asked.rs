//! The expert beside the library of an earlier commit: how many times as long that took, and how many times were asked for.

use crate::base::{self, BASE};
use crate::tables::{grouped, name_with_spread, print_row, print_rule, ROUNDS};
use crate::{instructions, works, Named, EXPERT};

/// A work of its greatest size, what it is, and the ratio that was measured elsewhere and asked for here. Both commits have
/// to do the same on its input: so no message 1 is among them whose answer a landing since then has changed.
struct Asked {
    name: &'static str,
    what: &'static str,
    ratio: f64,
}

const fn asked(name: &'static str, what: &'static str, ratio: f64) -> Asked {
    Asked { name, what, ratio }
}

const ASKED: [Asked; 8] = [
    asked("valid", "validity", 2.0),
    asked(
        "answer1-last",
        "message 1 ending in OK, all rows looked at",
        1.9,
    ),
    asked(
        "answer1-newest",
        "message 1 ending in OK, newest versions read",
        1.9,
    ),
    asked("answer1", "message 1 ending in ABORT", 2.3),
    asked("merge-same-3", "merge of same stamps of 3 boxes", 111.0),
    asked(
        "merge-apart-7",
        "merge of disjoint stamps of 7 boxes",
        138.0,
    ),
    asked("count-same", "count of 7 that agree", 12.0),
    asked("count-apart", "count of 7 that differ", 18.0),
];

const HEADINGS: [&str; 9] = [
    "work",
    "what it is",
    "size",
    "base ns",
    "expert ns",
    "ns: base / expert",
    "asked",
    "base instructions",
    "expert instructions",
];

/// Prints the table, over the library in the shared object at this path.
pub fn print(path: &str) {
    base::load(path);
    let headings = HEADINGS.map(String::from);
    print_row(&headings);
    print_rule(&headings);
    for asked in &ASKED {
        let work = works().find(|work| work.name == asked.name);
        print_row(&figures(path, asked, work.expect("a work of this program")));
    }
    println!();
}

fn figures(path: &str, asked: &Asked, work: &Named) -> Vec<String> {
    let size = work.sizes[work.sizes.len() - 1];
    eprintln!("bench: {} of {} {}, base", work.name, size, work.unit);
    let medians = (work.medians)(&[BASE, EXPERT], size, ROUNDS);
    let (base, expert) = (medians.nanoseconds[0], medians.nanoseconds[1]);
    let counted = |side| instructions::for_one_after(&["expert", path], work, side, size);
    let whole = |figure: f64| grouped(figure.round() as usize);
    vec![
        name_with_spread(work.name, medians.spread),
        asked.what.into(),
        format!("{} {}", size, work.unit),
        whole(base),
        whole(expert),
        format!("{:.1}", base / expert),
        asked.ratio.to_string(),
        grouped(counted(&BASE) as usize),
        grouped(counted(&EXPERT) as usize),
    ]
}

/// Has one of the two sides do a work so many times, for whoever counts its instructions.
pub fn one_side(path: &str, work: &Named, side: &str, size: &str, times: &str) {
    base::load(path);
    (work.one_side)(&[BASE, EXPERT], side, size, times);
}

#[cfg(test)]
mod tests {
    use super::ASKED;
    use crate::answer::Answering;
    use crate::{works, Work};
    use reference::{check, proposal_check, Message, PrepareResult, Table};

    #[test]
    fn what_is_asked_for_is_a_work_that_the_expert_does() {
        for asked in &ASKED {
            let mut works = works().filter(|work| work.name == asked.name);
            let sides = works.next().expect("a work").sides;
            assert!(sides.iter().any(|side| side.name == "expert"));
        }
    }

    /// The check of today and the older one both end in ABORT. Of the two others that are asked for, tests beside them have
    /// it that both end in OK.
    #[test]
    fn the_answer_to_message_1_is_the_same_in_both_commits() {
        for size in Answering::<1>::SIZES {
            let asked = Answering::<1>::of(size);
            let table = Table::parse(&asked.before).expect("a table").0;
            let (stamp, body) = match Message::parse(&asked.message) {
                Some(Message::ProposePrepare { stamp, body }) => (stamp, body),
                other => panic!("no message 1: {:?}", other),
            };
            for check in [check, proposal_check] {
                assert_eq!(check(&table.rows, stamp, &body), PrepareResult::Abort);
            }
            assert_eq!(asked.reply[3], 2);
        }
    }
}
