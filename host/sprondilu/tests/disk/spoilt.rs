//! Every call that changes a file, spoilt in turn: it fails, or the process is killed before it or in the middle of it.

use crate::common::boxes::{long_table, settled};
use crate::common::{answered, fresh, Folder, Ran};
use crate::shim::{run, run_with, Call, Spoilt};
use crate::{adding, case, Case};
use samples::message as make;

const LINE: &str = "answer t m --reply r";

/// File systems that know all calls, that cannot exchange two names, and that know no second names.
const FILE_SYSTEMS: [&str; 3] = ["", "exchange", "link"];

/// And one that knows none of these.
const POOREST: &str = "exchange link rename-new";

/// The number of the process, wherever it matters.
const NUMBER: (&str, &str) = ("SHIM_PROCESS", "7");

/// Messages of every kind that changes a table; one table grows, one stays as long, one becomes shorter.
fn cases() -> Vec<Case> {
    let shorter = make::start_view(7, &settled(&fresh(3, 0), 7));
    vec![
        adding(40),
        case(long_table(3), make::finalise_prepare(65_537, 0, (4, 9))),
        case(long_table(3), make::change_view(7)),
        case(long_table(3), shorter),
    ]
}

/// The first call of this kind about such a file, from a place on.
#[track_caller]
fn place(calls: &[Call], from: usize, is: impl Fn(&Call) -> bool) -> usize {
    let found = calls.iter().skip(from).position(is);
    from + found.unwrap_or_else(|| panic!("no such call from {} on: {:#?}", from, calls))
}

/// The folder in which the files lie, as the log names it.
fn folder_of(case: &Case) -> String {
    let name = case.folder.path().file_name().expect("a name");
    name.to_string_lossy().into_owned()
}

/// What the log of a run has to say: the new table is written and synced before it takes the old one's place, the folder is
/// synced then, and only then anything else is written.
fn assert_stored_first(case: &Case, calls: &[Call]) {
    let placed = place(calls, 0, |call| {
        call.name == "exchange" && call.becomes == "t"
    });
    let draft = &calls[placed].file;
    let of_draft = |name: &str| -> Vec<usize> {
        let about = calls.iter().enumerate();
        let about = about.filter(|(_, call)| call.name == name && call.file == *draft);
        about.map(|(place, _)| place).collect()
    };
    let (writes, syncs) = (of_draft("write"), of_draft("fsync"));
    let written: usize = writes.iter().map(|place| calls[*place].bytes).sum();
    assert_eq!(written, case.new.len());
    // Nobody else can open it before it has the rights of the old table, and before that nothing is in it.
    let rights = of_draft("fchmod")[0];
    assert!(rights < writes[0], "{:#?}", calls);
    assert_eq!(calls[of_draft("create")[0]].bytes, 0o600);
    let last_write = *writes.last().expect("a write");
    let synced = *syncs.last().expect("a sync");
    assert!(last_write < synced && synced < placed, "{:#?}", calls);
    let folder = folder_of(case);
    let stored = place(calls, placed, |call| {
        call.name == "fsync" && call.file == folder
    });
    let told = place(calls, 0, |call| call.name == "write" && call.file != *draft);
    assert!(stored < told, "{:#?}", calls);
    // Nothing is ever written into a file that has its place, or cut there.
    assert!(calls.iter().all(|call| call.name != "ftruncate"));
    let in_place = |call: &&Call| ["write", "create"].contains(&&*call.name);
    let mut in_place = calls.iter().filter(in_place);
    assert!(in_place.all(|call| call.file != "t" && call.file != "r"));
}

/// And then: the reply is synced before it has its name, and the folder before anything is printed.
fn assert_replied_then(case: &Case, calls: &[Call]) {
    let linked = place(calls, 0, |call| call.name == "link" && call.becomes == "r");
    let draft = &calls[linked].file;
    let written = place(calls, 0, |call| call.name == "write" && call.file == *draft);
    let synced = place(calls, written, |call| {
        call.name == "fsync" && call.file == *draft
    });
    let folder = folder_of(case);
    let stored = place(calls, linked, |call| {
        call.name == "fsync" && call.file == folder
    });
    let printed = place(calls, linked, |call| call.name == "write");
    assert!(synced < linked && stored < printed, "{:#?}", calls);
}

#[test]
fn a_table_is_on_the_disk_before_a_reply_is_given() {
    for case in cases() {
        let (ran, calls) = run(&case.folder, LINE, None);
        ran.done();
        assert!(case.is_new("no trouble") && case.has_reply("no trouble"));
        assert_stored_first(&case, &calls);
        assert_replied_then(&case, &calls);
        assert_eq!(case.folder.names(), ["m", "r", "t"]);
    }
}

/// Spoils each call of a run in turn, until a run has no such call any more. Says how many runs left the old table and the new one.
fn spoil_each(case: &Case, how: &'static str, lacks: &str) -> (usize, usize) {
    let (mut old, mut new) = (0, 0);
    for turn in 1.. {
        case.begin();
        let spoilt = Spoilt { turn, how };
        let (ran, calls) = run_with(&case.folder, LINE, Some(spoilt), &[("SHIM_LACKS", lacks)]);
        let what = format!("{:?}: {:?} after {:#?}", spoilt, ran, calls);
        let (is_new, has_reply) = (case.is_new(&what), case.has_reply(&what));
        assert!(is_new || (!has_reply && ran.status != Some(0)), "{}", what);
        assert!(is_new || !ran.out.contains("done"), "{}", what);
        if calls.len() < turn {
            ran.done();
            return (old, new);
        }
        let is_killed = how == "KILL" || how == "HALF" && calls[turn - 1].name == "write";
        assert_eq!(ran.status.is_none(), is_killed, "{}", what);
        if !is_killed {
            assert_told(case, &ran, &what);
            // A file that could not be removed again may be left, and only that one.
            let names = case.folder.names();
            let hidden = names.iter().filter(|name| name.starts_with('.'));
            let may_be_left = usize::from(calls[turn - 1].name == "unlink");
            assert!(hidden.count() <= may_be_left, "{}", what);
        }
        *(if is_new { &mut new } else { &mut old }) += 1;
        case.goes_on(&what);
    }
    unreachable!("some run has fewer calls than turns");
}

/// A call that failed ends the run with an error that names the trouble, or it did not matter.
fn assert_told(case: &Case, ran: &Ran, what: &str) {
    match ran.status {
        Some(0) => {
            assert!(case.is_new(what) && case.has_reply(what), "{}", what);
            assert_eq!(ran.err, "", "{}", what);
        }
        Some(2) => {
            assert!(
                ran.out.is_empty() && ran.err.contains("os error"),
                "{}",
                what
            );
            let says_so = ran.err.contains("is stored") || ran.err.contains("is done all the same");
            // Of a folder that could not be synced nobody knows what the disk has.
            let unsure = ran.err.contains("cannot sync the folder");
            assert_eq!(says_so || unsure, case.is_new(what), "{}", what);
        }
        _ => panic!("{}", what),
    }
}

/// The cases on the usual file system, and one on those that know less.
fn everywhere() -> Vec<(Case, &'static str)> {
    let usual = cases().into_iter().map(|case| (case, FILE_SYSTEMS[0]));
    let others = FILE_SYSTEMS[1..].iter().map(|lacks| (adding(40), *lacks));
    usual.chain(others).collect()
}

#[test]
fn a_call_that_fails_leaves_the_old_table_or_the_new_one() {
    let mut everywhere = everywhere();
    everywhere.push((adding(40), POOREST));
    for (case, lacks) in everywhere {
        for how in ["ENOSPC", "EIO"] {
            let (old, new) = spoil_each(&case, how, lacks);
            assert!(old >= 5 && new >= 5, "{} and {}", old, new);
        }
    }
}

#[test]
fn a_run_that_is_killed_leaves_the_old_table_or_the_new_one() {
    for (case, lacks) in everywhere() {
        let (old, new) = spoil_each(&case, "KILL", lacks);
        assert!(old >= 5 && new >= 5, "{} and {}", old, new);
        // Of the three things that are written, the first is the table.
        let (old, new) = spoil_each(&case, "HALF", lacks);
        assert!(old == 1 && new >= 2, "{} and {}", old, new);
    }
}

/// A run was stopped after its table had its place and before it synced the folder; or the table was copied there by somebody who
/// syncs nothing. Whoever answers from that table then syncs it and its folder first, also if he refuses.
#[test]
fn a_reply_waits_for_what_another_run_stored() {
    for (case, number) in [
        (adding(3), 0),
        (case(long_table(3), make::change_view(7)), 10),
    ] {
        let (_, calls) = run(&case.folder, LINE, None);
        let placed = place(&calls, 0, |call| call.name == "exchange");
        case.begin();
        let spoilt = Spoilt {
            turn: placed + 2,
            how: "KILL",
        };
        let (ran, _) = run(&case.folder, LINE, Some(spoilt));
        assert!(ran.status.is_none() && case.is_new("killed after the exchange"));
        let (ran, calls) = run(&case.folder, LINE, None);
        assert_eq!(ran.status, Some(i32::from(number > 0)), "{:?}", ran);
        let told = place(&calls, 0, |call| call.name == "write");
        let folder = folder_of(&case);
        for synced in ["t", &folder] {
            let synced = place(&calls, 0, |call| {
                call.name == "fsync" && call.file == synced
            });
            assert!(synced < told, "{:#?}", calls);
        }
    }
}

/// The same of what is merged, and of a merge that is sent: others will go by it.
#[test]
fn a_merge_waits_for_what_another_run_stored() {
    let folder = Folder::new();
    let promised = |table: &[u8]| answered(table, &make::change_view(7)).1;
    folder.put("zero", &promised(&long_table(3)));
    folder.put("one", &promised(&fresh(3, 1)));
    for (line, tables) in [
        ("merge --view 7 --out merged zero one", 2),
        ("message start-view 7 merged --out m", 1),
    ] {
        let (ran, calls) = run(&folder, line, None);
        ran.done();
        let created = place(&calls, 0, |call| call.name == "create");
        // Each of them, and the folder that it is in.
        let is_synced = |call: &&Call| call.name == "fsync";
        let synced = calls[..created].iter().filter(is_synced).count();
        assert_eq!(synced, 2 * tables, "{}: {:#?}", line, calls);
    }
}

/// What a killed run leaves behind is nobody's draft: a later run that has the same process number takes another name.
#[test]
fn what_a_killed_run_left_is_left_alone() {
    let case = adding(3);
    let (_, calls) = run(&case.folder, LINE, None);
    let synced = place(&calls, 0, |call| call.name == "fsync");
    case.begin();
    // The second and the third begin with names that are taken, so that they come less far.
    for turn in 0..3 {
        let spoilt = Spoilt {
            turn: synced + 1,
            how: "KILL",
        };
        let (ran, _) = run_with(&case.folder, LINE, Some(spoilt), &[NUMBER]);
        assert!(ran.status.is_none() && !case.is_new("killed"), "{:?}", ran);
        assert!(case.folder.has(&format!(".t.7-{}.new", turn)));
    }
    // Half a table, and what is no table at all.
    case.folder.put(".t.7-1.new", &case.new[..20]);
    case.folder.put(".r.7-0.new", b"something else");
    let left = case.folder.state();
    let (ran, calls) = run_with(&case.folder, "answer t m --reply new", None, &[NUMBER]);
    ran.done();
    assert!(case.is_new("a run with the same number"));
    assert_eq!(calls[0].file, ".t.7-0.new");
    for (name, touched) in &left {
        assert!(
            name == "t" || case.folder.state().get(name) == Some(touched),
            "{}",
            name
        );
    }
    assert_eq!(case.folder.names().len(), left.len() + 1);
}

/// Spoils each call of another command that writes `new`: what it writes is whole or is not there, and what was there stays until
/// it is replaced.
fn spoil_each_of(folder: &Folder, line: &str, how: &'static str, lacks: &str) {
    let old = line.contains("--replace").then_some(&[5, 0, 0, 0, 1][..]);
    let begin = || {
        let made = |name: &&String| *name != "zero" && *name != "one";
        folder
            .names()
            .iter()
            .filter(made)
            .for_each(|name| folder.remove(name));
        old.iter().for_each(|old| folder.put("new", old));
    };
    begin();
    run(folder, line, None).0.done();
    let new = folder.bytes("new");
    for turn in 1.. {
        begin();
        let spoilt = Some(Spoilt { turn, how });
        let (ran, calls) = run_with(folder, line, spoilt, &[("SHIM_LACKS", lacks)]);
        let found = folder.has("new").then(|| folder.bytes("new"));
        let is_new = found.as_ref() == Some(&new);
        assert!(
            is_new || found.as_deref() == old,
            "{} {}: {:?}",
            how,
            turn,
            ran
        );
        assert!(is_new || ran.status != Some(0), "{:?}", ran);
        if calls.len() < turn {
            assert!(turn > 5, "{:#?}", calls);
            ran.done();
            return;
        }
    }
}

#[test]
fn other_files_are_whole_or_not_there() {
    let folder = Folder::new();
    let promised = |table: &[u8]| answered(table, &make::change_view(7)).1;
    folder.put("zero", &promised(&long_table(30)));
    folder.put("one", &promised(&fresh(3, 1)));
    for line in [
        "fresh --n 3 --box 0 new",
        "message change-view 7 --out new",
        "message change-view 8 --out new --replace",
        "merge --view 7 --out new zero one",
    ] {
        for how in ["ENOSPC", "EIO", "KILL", "HALF"] {
            for lacks in FILE_SYSTEMS {
                spoil_each_of(&folder, line, how, lacks);
            }
        }
    }
}
