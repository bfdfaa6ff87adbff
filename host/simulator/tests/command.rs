//! The command as a person uses it: what it prints, and how it ends.

use std::process::{Command, Output};

fn simulate(words: &[&str]) -> Output {
    let command = env!("CARGO_BIN_EXE_simulator");
    Command::new(command)
        .args(words)
        .output()
        .expect("the command to start")
}

fn printed(output: &Output) -> String {
    String::from_utf8_lossy(&output.stdout).into_owned()
}

#[test]
fn a_run_ends_with_what_was_judged() {
    let words = ["--seed", "7", "--histories", "30"];
    let first = simulate(&words);
    assert!(first.status.success(), "{:?}", first);
    let all = printed(&first);
    let last = all.lines().last().unwrap_or("");
    // Every fourth.
    let histories = "no violation in 30 histories, 7 of them of small models, ";
    assert!(last.starts_with(histories), "{}", last);
    assert!(last.ends_with(" merges judged"), "{}", last);
    // The same seed, the same histories.
    assert_eq!(printed(&simulate(&words)), all);
    assert_ne!(
        printed(&simulate(&["--seed", "8", "--histories", "30"])),
        all
    );
}

#[test]
fn groups_are_of_the_size_asked_for() {
    let all = printed(&simulate(&["--histories", "5", "--n", "5"]));
    let histories = all.lines().find(|line| line.starts_with("histories "));
    let counts: Vec<&str> = histories.unwrap_or("").split_whitespace().skip(1).collect();
    assert_eq!(counts, ["0", "5", "0", "5"]);
}

#[test]
fn boxes_have_the_rows_asked_for() {
    let all = printed(&simulate(&["--histories", "5", "--rows", "8"]));
    let last = all.lines().last().unwrap_or("");
    let histories = "no violation in 5 histories, 5 of them of small models, ";
    assert!(last.starts_with(histories), "{}", last);
}

#[test]
fn what_is_asked_wrongly_is_said() {
    for (words, said) in [
        (&["--n", "4"][..], "3, 5 or 7 boxes"),
        (&["--seed"], "nothing behind --seed"),
        (&["--seed", "-1"], "no number from 0"),
        (&["--histories", "0"], "no number from 1"),
        (&["--histories", "5", "--minutes", "1"], "not both"),
        (&["--fast", "5"], "--fast"),
        (&["--rows", "512"], "no number from 6 to 12"),
    ] {
        let output = simulate(words);
        let errors = String::from_utf8_lossy(&output.stderr);
        assert_eq!(output.status.code(), Some(2), "{:?}", words);
        assert!(
            errors.contains(said) && errors.contains("usage: simulator"),
            "{}",
            errors
        );
        assert!(output.stdout.is_empty(), "{:?}", words);
    }
}
