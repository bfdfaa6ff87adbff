//! Room for the merge, told step by step: how many new stamps a box takes in a view, that the merge has room for all of them,
//! and what becomes of it where boxes keep no room. The rows are counted as the paper has them: "From a fresh group of
//! three that is 256; of five, 170; of seven, 128."

use crate::told::{apart, Told, OK};
use crate::{breaks, holds, History};
use reference::Outcome;
use samples::{message as make, Row};
use simulator::faults;
use simulator::law::Law;
use simulator::machine::{Machine, LIBRARY, SECOND};
use simulator::watch::Part;

const FULL: &str = "number 7";

/// The rows that the first merge for a view has.
fn merged_rows(told: &Told, view: u32) -> usize {
    let mut merged = told.play.group.merged.iter();
    let merge = merged.find(|merged| merged.view == view);
    merge.expect("a merge for the view").table.rows.len()
}

/// A history in which each of f+1 boxes takes entries that no other of them hears of.
struct DryWeek {
    told: Told,
    /// The first f+1 boxes, which take the entries.
    takers: Vec<usize>,
    all: Vec<usize>,
    /// The stamp of the next entry. They rise, so that every box that has room says OK.
    next: u64,
}

impl DryWeek {
    /// The first entry of box 0 comes also to the f boxes that take no others, and is declared OK by all of these.
    fn of(machine: Machine, law: Law, n: u8) -> DryWeek {
        let mut told = Told::of(machine, law, n);
        let all: Vec<usize> = told.play.group.boxes().collect();
        let quorum = told.play.group.counts.quorum;
        let with_others: Vec<usize> = [0].into_iter().chain(quorum..all.len()).collect();
        assert_eq!(told.settle(&apart(1), 0, &with_others), OK);
        DryWeek {
            told,
            takers: all[..quorum].to_vec(),
            all,
            next: 2,
        }
    }

    /// A box takes so many new stamps.
    fn takes(&mut self, by: usize, count: usize) {
        for _ in 0..count {
            let said = self.hears(by);
            assert_eq!(said, "tentative OK", "{}", self.told.play.words());
        }
    }

    /// What a box says to a new stamp.
    fn hears(&mut self, by: usize) -> String {
        let said = self.told.prepare(&self.newcomer(), &[by]);
        self.next += 1;
        said.concat()
    }

    fn newcomer(&self) -> Row {
        apart(self.next)
    }

    /// Each of the f+1 boxes takes new stamps until it has added so many rows in its view. Box 0 may have added one before.
    fn each_adds(&mut self, rows: usize) {
        for by in self.takers.clone() {
            let (held, start_rows) = self.told.play.group.rows_of(by);
            self.takes(by, rows - (held - start_rows) as usize);
        }
    }

    /// Each of the f+1 boxes refuses a new stamp as full, by message 1 and by message 3.
    fn each_is_full(&mut self) {
        for by in self.takers.clone() {
            assert_eq!(self.hears(by), FULL, "{}", self.told.play.words());
            let abort = make::propose_outcome(&self.newcomer(), Outcome::Abort.code());
            let answered = self.told.play.tell(by, abort).expect("a lawful message");
            assert_eq!(answered.number, 7, "{}", self.told.play.words());
        }
    }

    /// The f+1 boxes promise a view, and all boxes start it with the merge of these: how many rows that has.
    fn change(&mut self, view: u32) -> usize {
        self.told.change(view, &self.takers);
        self.told.start(view, &self.all);
        merged_rows(&self.told, view)
    }
}

/// The shares of a fresh group, and the rows of the merge of boxes that have taken all of theirs.
const SHARES: [(u8, usize, usize); 3] = [(3, 256, 512), (5, 170, 510), (7, 128, 512)];

fn nothing_violated(told: &Told) {
    let play = &told.play;
    let (lost, slipped) = (&play.violations, &play.out_of_order);
    assert!(play.held(), "{:?} {:?} {}", lost, slipped, play.words());
}

/// "In a dry week two boxes took different entries": f+1 boxes take their whole shares, and refuse the next as full. The
/// merge is done and is started. In the new view there is nothing left to share.
fn dry_week(machine: Machine, n: u8, share: usize) -> (DryWeek, usize) {
    let mut week = DryWeek::of(machine, Law::whole(), n);
    week.each_adds(share);
    week.each_is_full();
    let rows = week.change(1);
    week.each_is_full();
    (week, rows)
}

#[test]
fn the_merge_has_room_for_every_share() {
    for machine in [LIBRARY, SECOND] {
        for (n, share, rows) in SHARES {
            let (week, merged) = dry_week(machine, n, share);
            assert_eq!(merged, rows, "{} boxes on {}", n, machine.name);
            nothing_violated(&week.told);
        }
    }
}

/// "A group with no room left still reads, finalises and changes view."
#[test]
fn a_group_with_no_room_left_goes_on() {
    for machine in [LIBRARY, SECOND] {
        for (n, share, rows) in SHARES {
            let (mut week, _) = dry_week(machine, n, share);
            let all = week.all.clone();
            let told = &mut week.told;
            // A stamp that is held is no new one.
            assert_eq!(told.settle(&apart(2), 1, &all), OK);
            told.propose(&apart(2), Outcome::Commit, &all)
                .expect("a lawful commit");
            let done = told.finish(&apart(2), 1, Outcome::Commit, &all);
            assert_eq!(done, Ok(vec![0; all.len()]));
            assert!(all.iter().all(|b| version_read(told, *b) == 2));
            assert_eq!(week.change(2), rows, "{}", week.told.play.words());
            week.each_is_full();
            nothing_violated(&week.told);
        }
    }
}

/// The version that a box reads of the register that all these entries write.
fn version_read(told: &mut Told, by: usize) -> u64 {
    let answered = told.play.tell(by, make::read(1_000_000, 9));
    let answered = answered.expect("a lawful message");
    assert_eq!(answered.number, 0);
    answered.reply.stamp
}

/// In the first view each of f+1 boxes takes ten, in the second its share of what is left then: "512 less the start rows,
/// divided by f+1 and rounded down".
#[test]
fn a_view_with_rows_to_spare_is_shared_anew() {
    for machine in [LIBRARY, SECOND] {
        for (n, share, rows) in [(3, 246, 512), (5, 160, 510), (7, 118, 512)] {
            let mut week = DryWeek::of(machine, Law::whole(), n);
            week.each_adds(10);
            assert_eq!(week.change(1), 10 * week.takers.len());
            week.each_adds(share);
            week.each_is_full();
            assert_eq!(week.change(2), rows, "{} boxes on {}", n, machine.name);
            nothing_violated(&week.told);
        }
    }
}

/// Box 0 takes its whole share while box 1 takes nothing. In the next view it takes its share of what is left then.
#[test]
fn a_view_change_makes_room_again() {
    for machine in [LIBRARY, SECOND] {
        let mut week = DryWeek::of(machine, Law::whole(), 3);
        week.takes(0, 255);
        assert_eq!(week.hears(0), FULL);
        assert_eq!(week.change(1), 256);
        week.takes(0, 128);
        assert_eq!(week.hears(0), FULL);
        nothing_violated(&week.told);
    }
}

/// As the dry week, but box 0 is told one entry more than its share, or, of five, where two rows are left over, each of the
/// boxes that take entries is.
fn one_too_many(machine: Machine, law: Law, n: u8, share: usize) -> Told {
    let mut week = DryWeek::of(machine, law, n);
    week.each_adds(share);
    let told_more = if n == 5 { week.takers.len() } else { 1 };
    let said: Vec<String> = (0..told_more).map(|by| week.hears(by)).collect();
    week.told.sees(&said[0]);
    week.told.change(1, &week.takers);
    week.told
}

fn entry_257(machine: Machine, law: Law) -> Told {
    one_too_many(machine, law, 3, 256)
}

fn entries_171(machine: Machine, law: Law) -> Told {
    one_too_many(machine, law, 5, 170)
}

fn entry_129(machine: Machine, law: Law) -> Told {
    one_too_many(machine, law, 7, 128)
}

/// "and the view change was refused as full"
#[test]
fn one_entry_more_would_have_the_merge_refused() {
    let (fault, law) = (faults::NO_ROOM_KEPT, Law::whole());
    for (history, boxes, rows) in [
        (entry_257 as History, "0 1", 256),
        (entries_171, "0 1 2", 170),
        (entry_129, "0 1 2 3", 128),
    ] {
        holds(history, FULL);
        let refused = format!(
            "the merge for view 1 of boxes {} was refused with number 7",
            boxes
        );
        breaks(
            history,
            fault,
            law,
            "tentative OK",
            Part::MergeDone,
            &refused,
        );
        let took = format!("box 0 took a new stamp and had no room, with {} rows", rows);
        breaks(history, fault, law, "tentative OK", Part::Room, &took);
    }
}
