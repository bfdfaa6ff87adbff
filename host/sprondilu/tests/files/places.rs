//! Where files are: through links, in other folders, and files that are not to be written over.

use crate::bad::good_files;
use crate::common::ran::{bad_usage, not_tried};
use crate::common::{answered, run, run_words, Folder, Ran};
use samples::message as make;
use std::fs;
use std::os::unix::fs::symlink;
use std::process::Command;

/// A message that adds a row to the table of `good_files`, and the table then.
fn adding(folder: &Folder) -> Vec<u8> {
    let row = samples::row_of_the_paper(0);
    folder.put(
        "add",
        &make::propose_prepare(&samples::Row { stamp: 9, ..row }),
    );
    answered(&folder.bytes("t"), &folder.bytes("add")).1
}

#[test]
fn a_table_behind_links_is_changed_and_the_links_stay() {
    let folder = good_files();
    let after = adding(&folder);
    fs::create_dir(folder.at("far")).expect("a folder");
    fs::rename(folder.at("t"), folder.at("far/table")).expect("moved");
    symlink("far/table", folder.at("near")).expect("a link");
    symlink(folder.at("near"), folder.at("t")).expect("a link");
    let ran = run(&folder, "answer t add --reply reply").done();
    assert!(ran.out.starts_with("t: 0 done"), "{:?}", ran);
    for (link, leads_to) in [("near", "far/table".into()), ("t", folder.at("near"))] {
        assert_eq!(fs::read_link(folder.at(link)).expect("a link"), leads_to);
    }
    assert_eq!(folder.bytes("far/table"), after);
    let far: Vec<_> = fs::read_dir(folder.at("far")).expect("a folder").collect();
    assert_eq!(far.len(), 1, "nothing else is left there");
}

#[test]
fn tables_and_replies_in_other_folders() {
    let folder = good_files();
    let after = adding(&folder);
    fs::create_dir_all(folder.at("a/b")).expect("folders");
    fs::rename(folder.at("t"), folder.at("a/table")).expect("moved");
    let absolute = folder.at("a/table");
    let absolute = absolute.to_str().expect("text");
    run(&folder, "answer a/b/../table ./add --reply a/b/reply").done();
    run(
        &folder,
        &format!("answer {} add --reply a/b/again", absolute),
    )
    .done();
    assert_eq!(folder.bytes("a/table"), after);
    assert_eq!(folder.bytes("a/b/again"), folder.bytes("a/b/reply"));
}

/// Links as places for what is new: they are there already, wherever they lead.
#[test]
fn links_are_not_written_over() {
    let folder = good_files();
    adding(&folder);
    symlink("nowhere", folder.at("dangling")).expect("a link");
    symlink("r", folder.at("link")).expect("a link");
    for name in ["dangling", "link"] {
        let words = format!("{} is there already", name);
        not_tried(&folder, &format!("answer t add --reply {}", name), &words);
        not_tried(&folder, &format!("fresh --n 3 --box 0 {}", name), &words);
        not_tried(
            &folder,
            &format!("merge --view 1 --out {} zero one", name),
            &words,
        );
        not_tried(
            &folder,
            &format!("message change-view 1 --out {}", name),
            &words,
        );
    }
    // With a stroke behind it a name is a folder's; that link leads to none.
    for line in [
        "fresh --n 3 --box 0 dangling/",
        "message change-view 1 --out dangling/",
        "message change-view 1 --out dangling/ --replace",
        "message change-view 1 --out new/",
    ] {
        not_tried(&folder, line, "is no name for a file");
    }
    assert!(!folder.has("nowhere"));
    // Replaced is the link, not what it leads to.
    let reply = folder.bytes("r");
    run(&folder, "answer t add --reply link --replace").done();
    assert_eq!(folder.bytes("r"), reply);
}

#[test]
fn a_reply_is_not_written_over_the_table_or_the_message() {
    let folder = good_files();
    adding(&folder);
    symlink("t", folder.at("to-table")).expect("a link");
    symlink("add", folder.at("to-message")).expect("a link");
    let words = "written over the table or the message";
    for reply in ["t", "add", "./t", "../NAME/add", "to-table", "to-message"] {
        let name = folder.path().file_name().expect("a name");
        let reply = reply.replace("NAME", name.to_str().expect("text"));
        for table in ["t", "to-table"] {
            let line = format!("answer {} add --reply {}", table, reply);
            bad_usage(&folder, &line, words);
            bad_usage(&folder, &format!("{} --replace", line), words);
        }
    }
}

/// A reply that cannot be written is noticed before the table changes: if something is there already, if a folder is, if the
/// folder for it is not, and if what it would replace is a table.
#[test]
fn a_table_waits_for_a_place_for_the_reply() {
    let folder = good_files();
    adding(&folder);
    folder.put("damaged", &folder.bytes("t")[1..]);
    symlink("/dev/null", folder.at("nul")).expect("a link");
    symlink("one", folder.at("to-one")).expect("a link");
    symlink("nowhere", folder.at("dangling")).expect("a link");
    let made = Command::new("mkfifo").arg(folder.at("pipe")).status();
    assert!(made.expect("mkfifo").success());
    for (reply, words) in [
        ("r", "r is there already"),
        (".", "it is a folder"),
        (". --replace", "it is a folder"),
        ("no/reply", "its folder is not there"),
        ("t/reply", "its folder is not there"),
        ("one --replace", "what is there is no reply"),
        ("add --replace", "over the table or the message"),
        ("damaged --replace", "what is there is no reply"),
        ("to-one --replace", "what is there is no reply"),
        ("nul --replace", "another could take the place of"),
        ("pipe --replace", "another could take the place of"),
        ("dangling --replace", "cannot write dangling"),
    ] {
        not_tried(&folder, &format!("answer t add --reply {}", reply), words);
    }
    let words = ["answer", "t", "add", "--reply", ""];
    run_words(&folder, &words).not_tried("'' is no name for a file");
}

/// A run holds one lock at a time, and so none waits for itself or for another that waits for it: here the table file, which is a
/// reply and no table, is the file that the reply replaces.
#[test]
fn a_reply_over_a_second_name_of_the_table() {
    let folder = good_files();
    fs::hard_link(folder.at("r"), folder.at("second")).expect("a second name");
    let words = ["answer", "r", "m", "--reply", "second", "--replace"];
    let ended = Command::new("timeout")
        .args(["20", env!("CARGO_BIN_EXE_sprondilu")])
        .args(words)
        .current_dir(folder.path())
        .output();
    Ran::of(words.join(" "), ended.expect("timeout")).refused(2);
    assert_eq!(folder.bytes("second")[0], 2);
    assert_eq!(folder.bytes("r")[0], 0);
}

/// A read and a refusal leave the file as it is, and so does a message whose answer is held already: also its inode and the time
/// at which it was changed.
#[test]
fn what_changes_nothing_touches_no_file() {
    let folder = good_files();
    folder.put("read", &make::read(65_537, 5));
    folder.put("view", &make::finalise_prepare(65_537, 3, (1, 0)));
    let before = folder.state();
    for (message, status) in [("read", 0), ("m", 0), ("view", 1), ("r", 1)] {
        for line in ["answer t MESSAGE", "answer t MESSAGE --json"] {
            let ran = run(&folder, &line.replace("MESSAGE", message));
            assert_eq!(ran.status, Some(status), "{:?}", ran);
            assert!(folder.state() == before, "{:?}", ran);
        }
    }
    // No more do the commands that only look.
    for line in [
        "show t",
        "check t",
        "show --message m",
        "check --reply r",
        "count --n 3 r",
    ] {
        run(&folder, line).done();
        assert!(folder.state() == before, "{}", line);
    }
}

/// Nothing hidden is left behind in the folder, whatever came of a run.
#[test]
fn nothing_is_left_behind() {
    let folder = good_files();
    adding(&folder);
    let mut names = folder.names();
    for (line, new) in [
        ("answer t add --reply r1", Some("r1")),
        ("answer t add --reply r2", Some("r2")),
        ("answer t r --reply r3", Some("r3")),
        ("answer t add --reply r1", None),
        ("answer t add --reply r1 --replace", None),
        ("fresh --n 3 --box 0 f", Some("f")),
        ("fresh --n 3 --box 0 f", None),
        ("merge --view 1 zero one --out g", Some("g")),
        ("merge --view 1 zero one --out g", None),
        ("merge --view 2 zero one --out h", None),
        ("message change-view 2 --out n", Some("n")),
        ("message change-view 2 --out n", None),
        ("message change-view 2 --out no/n", None),
    ] {
        run(&folder, line);
        names.extend(new.map(str::to_string));
        names.sort();
        assert_eq!(folder.names(), names, "{}", line);
    }
    let nothing: [&str; 0] = [];
    run_words(&folder, &nothing);
    assert_eq!(folder.names(), names);
}
