//! The command itself: what it says and how it ends; and that the machine stops whoever passes a fence.

use std::os::unix::process::ExitStatusExt;
use std::process::{Command, Output};

/// What the machine sends to a program that touches memory which it may not.
const SEGMENTATION_FAULT: i32 = 11;

fn attack(words: &[&str]) -> Output {
    let mut command = Command::new(env!("CARGO_BIN_EXE_attack"));
    command.args(words).output().expect("the command runs")
}

#[test]
fn whoever_passes_a_fence_is_stopped() {
    for how in [
        "read-before",
        "read-behind",
        "write-before",
        "write-behind",
        "write-what-is-read",
    ] {
        let ended = attack(&["--trespass", how]);
        assert_eq!(ended.status.signal(), Some(SEGMENTATION_FAULT), "{}", how);
        assert!(ended.stdout.is_empty(), "{}", how);
    }
}

#[test]
fn rounds_are_told_with_what_they_met() {
    let ended = attack(&["--rounds", "12", "--from", "100", "--allocated"]);
    let said = String::from_utf8(ended.stdout).expect("words");
    assert!(ended.status.success(), "{}", said);
    assert!(said.contains("\n12 rounds, "), "{}", said);
    assert!(said.ends_with("no difference\n"), "{}", said);
}

#[test]
fn a_bad_word_is_refused_with_the_usage() {
    for words in [
        &["--hours", "1"][..],
        &["--rounds"],
        &["--rounds", "many"],
        &["--trespass"],
    ] {
        let ended = attack(words);
        let said = String::from_utf8(ended.stderr).expect("words");
        assert_eq!(ended.status.code(), Some(2), "{:?}", words);
        assert!(said.contains("attack [--minutes M"), "{}", said);
        assert!(ended.stdout.is_empty(), "{:?}", words);
    }
}
