//! Limits that are there on every machine: how long a file may become, and a standard output that takes nothing.

use crate::common::{program, run, Folder, Ran};
use crate::{adding, Case};
use std::fs::OpenOptions;
use std::process::Command;

/// Runs a line in a shell in which no file may become longer than so many blocks; a write of more fails.
fn limited(folder: &Folder, blocks: usize, line: &str) -> Ran {
    let script = format!("trap '' XFSZ; ulimit -f {}; exec \"$0\" {}", blocks, line);
    let output = Command::new("sh")
        .current_dir(folder.path())
        .args(["-c", &script, env!("CARGO_BIN_EXE_sprondilu")])
        .output();
    Ran::of(line.to_string(), output.expect("a shell"))
}

/// A table that is too long for the limit stays as it was, and when the limit is gone the same line works.
#[test]
fn a_table_longer_than_files_may_be() {
    let case = adding(200);
    // A block is 512 or 1024 bytes; the table has more than 6000.
    for blocks in [0, 1, 2, 5] {
        let ran = limited(&case.folder, blocks, "answer t m --reply r");
        let ran = ran.not_tried("cannot write");
        assert!(ran.err.contains("os error"), "{:?}", ran);
        assert!(!case.is_new("a limit"), "{:?}", ran);
        assert_eq!(case.folder.names(), ["m", "t"]);
    }
    limited(&case.folder, 100, "answer t m --reply r").done();
    assert!(case.is_new("no limit") && case.has_reply("no limit"));
}

#[test]
fn other_files_longer_than_files_may_be() {
    let case = adding(200);
    for line in [
        "fresh --n 3 --box 0 new",
        "message change-view 1 --out new",
        "answer t r --reply new",
    ] {
        case.begin();
        case.folder.put("r", b"no message");
        let before = case.folder.state();
        limited(&case.folder, 0, line).not_tried("cannot write new");
        assert!(case.folder.state() == before, "{}", line);
    }
}

/// Runs a line with this file for its standard output.
fn printed_to(folder: &Folder, file: &str, line: &str) -> Ran {
    let out = OpenOptions::new().write(true).open(file);
    let output = program(folder)
        .args(line.split_whitespace())
        .stdout(out.expect("a file to print to"))
        .output();
    Ran::of(line.to_string(), output.expect("a program to run"))
}

/// An answer that cannot be printed ends with 2 and says so; what was asked is done.
#[test]
fn a_standard_output_that_is_full() {
    let case: Case = adding(3);
    for line in [
        "answer t m --reply r",
        "answer t m --json",
        "show t",
        "check t",
        "--help",
    ] {
        let ran = printed_to(&case.folder, "/dev/full", line);
        let ran = ran.not_tried("cannot be printed");
        assert!(ran.err.contains("done all the same"), "{:?}", ran);
        assert!(case.is_new("printed nowhere"), "{:?}", ran);
        assert!(case.has_reply("printed nowhere"));
    }
    // A refusal too: it is not taken for done.
    let ran = printed_to(&case.folder, "/dev/full", "check m");
    let ran = ran.not_tried("cannot be printed");
    assert!(!ran.err.contains("done all the same"), "{:?}", ran);
    run(&case.folder, "answer t m").done();
}

/// A reader that went away, as `head` does, is no trouble.
#[test]
fn a_pipe_that_nobody_reads() {
    let case = adding(500);
    for (line, status) in [("show t", 0), ("check m", 1), ("answer t m", 0)] {
        let script = format!("{{ sleep 0.05; \"$0\" {}; echo $? >status; }} | true", line);
        let done = Command::new("sh")
            .current_dir(case.folder.path())
            .args(["-c", &script, env!("CARGO_BIN_EXE_sprondilu")])
            .output()
            .expect("a shell");
        assert_eq!(done.stderr, b"", "{}", line);
        assert_eq!(
            case.folder.bytes("status"),
            format!("{}\n", status).as_bytes()
        );
    }
    assert!(case.is_new("a pipe"));
}
