//! Names that are no text, that look like options, and that are as long as names can be.

use crate::bad::good_files;
use crate::common::{answered, program, run_words, Folder, Ran};
use std::ffi::{OsStr, OsString};
use std::fs;
use std::os::unix::ffi::{OsStrExt, OsStringExt};

/// The words of a line with names in place of T, M, R, Z and O, all of them behind `--` but the values of options.
fn named(folder: &Folder, options: &str, files: &str, name: impl Fn(&str) -> OsString) -> Ran {
    let word = |word: &str| match word {
        "T" | "M" | "R" | "Z" | "O" => name(word),
        other => OsString::from(other),
    };
    let mut words: Vec<OsString> = options.split_whitespace().map(word).collect();
    words.push("--".into());
    words.extend(files.split_whitespace().map(word));
    run_words(folder, &words)
}

/// Every command with its files under such names, from a fresh table to a merge.
fn commands_work(name: impl Fn(&str) -> OsString) {
    let folder = good_files();
    let at = |which: &str| folder.path().join(name(which));
    fs::copy(folder.at("m"), at("M")).expect("a copy");
    named(&folder, "fresh --n 3 --box 0", "T", &name).done();
    let before = fs::read(at("T")).expect("the table");
    named(&folder, "answer --reply R", "T M", &name).done();
    let (_, table, reply) = answered(&before, &fs::read(at("M")).expect("the message"));
    assert_eq!(fs::read(at("T")).expect("the table"), table);
    assert_eq!(fs::read(at("R")).expect("the reply"), reply);
    named(&folder, "answer --reply R", "T M", &name).not_tried("is there already");
    named(&folder, "answer --replace --reply R", "T M", &name).done();
    named(&folder, "answer --replace --reply T", "T M", &name).bad_usage("over the table");
    for (options, files) in [
        ("show --json", "T"),
        ("check --json", "T"),
        ("show --json --message", "M"),
        ("check --json --reply", "R"),
        ("count --json --n 3", "R"),
        ("message --json --replace --out M", "change-view 1"),
        ("answer --json", "T M"),
        ("merge --json --view 1 --out Z", "T one"),
        ("message --json --out O", "start-view 1 Z"),
        ("answer --json", "T O"),
    ] {
        named(&folder, options, files, &name).done().json();
    }
    named(&folder, "answer --json", "T Z", &name).refused_json(3);
    let entries = fs::read_dir(folder.path()).expect("the folder").count();
    assert_eq!(entries, 5 + 5, "{:?}", folder.names());
}

#[test]
fn names_that_are_no_text() {
    commands_work(|which| OsString::from_vec([which.as_bytes(), b"\xff\xfe"].concat()));
}

#[test]
fn names_that_look_like_options() {
    commands_work(|which| format!("--json{}", which).into());
    commands_work(|which| format!("-{}", which).into());
    commands_work(|which| format!("--out={}", which).into());
}

#[test]
fn names_with_spaces_quotes_and_line_ends() {
    commands_work(|which| format!("a \"{}\"\n\t\\ 'b'", which).into());
}

/// As long as a name can be, also if each byte of it takes three in the text for people.
#[test]
fn the_longest_names() {
    commands_work(|which| format!("{}{}", which, "x".repeat(254)).into());
    commands_work(|which| OsString::from_vec([which.as_bytes(), &[0xff; 254]].concat()));
}

/// A value behind `=` may be no text either.
#[test]
fn a_value_behind_an_equals_sign() {
    let folder = good_files();
    let word = [b"--reply=new\xff".as_slice(), b""].concat();
    let words = [OsStr::new("answer"), OsStr::from_bytes(&word)];
    let output = program(&folder).args(words).args(["t", "m"]).output();
    Ran::of("answer".into(), output.expect("a run")).done();
    let name = OsStr::from_bytes(b"new\xff");
    assert_eq!(
        fs::read(folder.path().join(name)).expect("the reply").len(),
        24
    );
}
