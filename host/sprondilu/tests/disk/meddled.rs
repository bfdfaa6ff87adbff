//! Somebody who knows nothing of locks puts his table under the name that a run writes to, before any of its calls: it stays there.

use crate::common::{answered, fresh, Folder};
use crate::shim::{run_with, Call, Spoilt};
use crate::{adding, Case};
use samples::message as make;
use std::os::unix::fs::symlink;

/// What he does. The last time the file stays the same one, and has other bytes.
const WAYS: [&str; 3] = [
    "RUN mv -f his $NAME",
    "RUN rm -f $NAME; mv his $NAME",
    "RUN cat his >$NAME",
];

fn his() -> Vec<u8> {
    fresh(3, 2)
}

fn begun(begin: impl Fn(&Folder)) -> Case {
    let case = adding(3);
    case.folder.put("his", &his());
    begin(&case.folder);
    case
}

/// What a run left behind.
fn hidden(folder: &Folder) -> Option<String> {
    let mut names = folder.names().into_iter();
    names.find(|name| name.starts_with('.'))
}

/// A run, the name under which it puts a file, and the calls that the file system does not know.
struct Run {
    line: &'static str,
    name: &'static str,
    lacks: &'static str,
}

impl Run {
    /// Lets him come before each call in turn, until there is no such call any more.
    fn come_before_each(&self, begin: impl Fn(&Folder)) {
        for how in WAYS {
            let comes = |turn: &usize| self.come_before(Spoilt { turn: *turn, how }, &begin);
            let calls = (1..).take_while(comes).count();
            assert!(calls > 5, "{} calls of {}", calls, self.line);
        }
    }

    /// The run is done if it has put its file there before he comes, and only then.
    fn come_before(&self, spoilt: Spoilt, begin: impl Fn(&Folder)) -> bool {
        let case = begun(begin);
        let settings = [("NAME", self.name), ("SHIM_LACKS", self.lacks)];
        let (ran, calls) = run_with(&case.folder, self.line, Some(spoilt), &settings);
        if calls.len() < spoilt.turn {
            ran.done();
            return false;
        }
        let (before, from) = calls.split_at(spoilt.turn - 1);
        // Where names cannot be exchanged, there is this one moment in which nobody sees him come.
        if from[0].name == "rename" && self.lacks.contains("exchange") {
            return true;
        }
        let what = format!("{:?}: {:?} after {:#?}", spoilt, ran, calls);
        assert!(case.folder.bytes(self.name) == his(), "{}", what);
        let ends = if self.is_placed(before) { 0 } else { 2 };
        assert_eq!(ran.status, Some(ends), "{}", what);
        assert_eq!(hidden(&case.folder), None, "{}", what);
        true
    }

    fn is_placed(&self, calls: &[Call]) -> bool {
        let places = ["exchange", "link", "rename", "rename-new"];
        let is_placed = |call: &Call| places.contains(&&*call.name) && call.becomes == self.name;
        calls.iter().any(is_placed)
    }
}

fn run(line: &'static str, name: &'static str) -> Run {
    let lacks = "";
    Run { line, name, lacks }
}

const MESSAGE: &str = "message change-view 7 --out x --replace";

/// First nothing is there; then a file that may be replaced; an empty one; and a link to one.
fn come_whatever_is_there(run: Run, old: &[u8]) {
    run.come_before_each(|_| {});
    run.come_before_each(|folder| folder.put("x", old));
    run.come_before_each(|folder| folder.put("x", b""));
    run.come_before_each(|folder| {
        folder.put("far", old);
        symlink("far", folder.at("x")).expect("a link");
    });
}

#[test]
fn a_table_that_comes_under_the_name_of_a_message_stays() {
    come_whatever_is_there(run(MESSAGE, "x"), &make::change_view(6));
}

#[test]
fn a_table_that_comes_under_the_name_of_a_reply_stays() {
    let reply = answered(&fresh(3, 0), &make::read(9, 5)).2;
    come_whatever_is_there(run("answer t m --reply x --replace", "x"), &reply);
}

#[test]
fn a_table_that_comes_under_the_name_of_a_new_one_stays() {
    run("fresh --n 3 --box 0 x", "x").come_before_each(|_| {});
    run("merge --view 1 --out x zero one", "x").come_before_each(|folder| {
        for (number, name) in [(0, "zero"), (1, "one")] {
            let promised = answered(&fresh(3, number), &make::change_view(1)).1;
            folder.put(name, &promised);
        }
    });
}

/// Also in the place of the table itself that a message changes: what the answer goes by is there no longer.
#[test]
fn a_table_that_comes_in_the_place_of_another_stays() {
    run("answer t m", "t").come_before_each(|_| {});
}

#[test]
fn a_table_that_comes_stays_on_file_systems_that_know_less() {
    for lacks in ["exchange", "link", "exchange link rename-new"] {
        let run = Run {
            lacks,
            ..run(MESSAGE, "x")
        };
        run.come_before_each(|_| {});
        run.come_before_each(|folder| folder.put("x", &make::change_view(6)));
    }
}

/// A table that is removed is not made again from what it was.
#[test]
fn a_table_that_is_removed_stays_away() {
    let case = begun(|_| {});
    let removed = Some(Spoilt {
        turn: 2,
        how: "RUN rm t",
    });
    let (ran, _) = run_with(&case.folder, "answer t m --reply r", removed, &[]);
    ran.not_tried("moved or removed it");
    assert_eq!(case.folder.names(), ["his", "m"]);
}

/// The turn of the first call of this name in a run.
fn turn_of(name: &str, case: &Case, line: &str, settings: &[(&str, &str)]) -> usize {
    let (_, calls) = run_with(&case.folder, line, None, settings);
    let place = calls.iter().position(|call| call.name == name);
    1 + place.unwrap_or_else(|| panic!("no {} in {}", name, line))
}

/// The turn of the first exchange of two names in a run.
fn exchange_of(case: &Case, line: &str) -> usize {
    turn_of("exchange", case, line, &[])
}

/// Two come, one before the names are exchanged and one before they are exchanged again: both tables are there, and the error
/// names the one that is hidden.
#[test]
fn of_two_tables_that_come_at_once_none_is_lost() {
    let begin = |folder: &Folder| {
        folder.put("hers", &fresh(3, 1));
        folder.put("x", &make::change_view(6));
    };
    let case = begun(begin);
    let both = Some(Spoilt {
        turn: exchange_of(&begun(begin), MESSAGE),
        how: "RUN mv his x 2>/dev/null || mv hers x",
    });
    let (ran, calls) = run_with(&case.folder, MESSAGE, both, &[("SHIM_FOR", "2")]);
    let hidden = hidden(&case.folder).unwrap_or_else(|| panic!("{:?} after {:#?}", ran, calls));
    ran.not_tried(&format!("one of them is now {}", hidden));
    let mut found = [case.folder.bytes("x"), case.folder.bytes(&hidden)];
    found.sort();
    assert_eq!(found, [fresh(3, 1), his()]);
}

const PROGRAM: (&str, &str) = ("PROGRAM", env!("CARGO_BIN_EXE_sprondilu"));

/// A run that begins while another is about to replace the same file waits, and replaces what the other put there.
#[test]
fn a_run_waits_for_another_that_replaces_the_same_file() {
    let begin = |folder: &Folder| folder.put("x", &make::change_view(6));
    let case = begun(begin);
    // It begins in the background; that both are over is seen at once, since they have the same error output.
    let second = Some(Spoilt {
        turn: exchange_of(&begun(begin), MESSAGE),
        how: "RUN $PROGRAM message change-view 8 --out x --replace >out & sleep 0.3",
    });
    let (ran, _) = run_with(&case.folder, MESSAGE, second, &[PROGRAM]);
    ran.done();
    assert_eq!(case.folder.bytes("x"), make::change_view(8));
    assert_eq!(hidden(&case.folder), None);
}

/// A run that begins while the new table is in its place, and is about to be taken away again, waits, and answers for the table that
/// is there then.
#[test]
fn a_run_waits_for_a_table_that_may_not_stay() {
    let case = begun(|_| {});
    let second = Some(Spoilt {
        turn: exchange_of(&begun(|_| {}), "answer t m"),
        how: "RUN mv his t 2>/dev/null || { $PROGRAM answer t m >out & sleep 0.3; }",
    });
    let settings = [PROGRAM, ("SHIM_FOR", "2")];
    let (ran, _) = run_with(&case.folder, "answer t m", second, &settings);
    ran.not_tried("moved or removed it");
    assert!(case.folder.bytes("t") == answered(&his(), &case.message).1);
    assert_eq!(hidden(&case.folder), None);
}

/// Where the file system knows nothing better, an empty file keeps the name for a table. A run that may replace an empty file waits
/// for it, and finds the table then.
#[test]
fn a_run_waits_for_a_name_that_is_kept_for_a_table() {
    let line = "fresh --n 3 --box 0 x";
    let lacks = ("SHIM_LACKS", "exchange link rename-new");
    let case = begun(|_| {});
    let second = Some(Spoilt {
        turn: turn_of("rename", &begun(|_| {}), line, &[lacks]),
        // The shell around it has the error output of the first, so that both are over when that is.
        how: "RUN { $PROGRAM message change-view 8 --out x --replace >out 2>said; true; } & sleep 0.3",
    });
    let (ran, _) = run_with(&case.folder, line, second, &[PROGRAM, lacks]);
    ran.done();
    assert_eq!(case.folder.bytes("x"), fresh(3, 0));
    // What is done is said in the one, and what is not in the other.
    assert_eq!(case.folder.bytes("out"), b"");
    let said = String::from_utf8(case.folder.bytes("said")).expect("words");
    assert!(said.contains("no message"), "{}", said);
    assert_eq!(hidden(&case.folder), None);
}
