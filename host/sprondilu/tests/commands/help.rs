//! Help, and words that name no command.

use crate::common::{run, run_words, Folder};

/// Each command with the options that it takes, as its help has to name them: those that stand alone, and those with a value.
const COMMANDS: [(&str, &[&str], &[&str]); 7] = [
    ("show", &["--message", "--reply", "--json"], &[]),
    ("check", &["--message", "--reply", "--json"], &[]),
    ("fresh", &["--json"], &["--n", "--box"]),
    ("message", &["--replace", "--json"], &["--out", "--at"]),
    ("answer", &["--replace", "--json"], &["--reply"]),
    ("merge", &["--json"], &["--view", "--out"]),
    ("count", &["--json"], &["--n"]),
];

/// Every option that any command has, and one that none has.
const OPTIONS: [&str; 11] = [
    "--message",
    "--reply",
    "--json",
    "--n",
    "--box",
    "--out",
    "--at",
    "--replace",
    "--view",
    "--keep",
    "--quiet",
];

fn help(folder: &Folder, line: &str) -> String {
    run(folder, line).done().out
}

/// The words of a text, without what stands around them.
fn words(text: &str) -> Vec<&str> {
    text.split(|letter: char| !letter.is_alphanumeric() && letter != '-')
        .collect()
}

#[test]
fn each_command_has_one_help_however_it_is_asked_for() {
    let folder = Folder::new();
    for (name, _, _) in COMMANDS {
        let text = help(&folder, &format!("{} --help", name));
        assert!(
            text.starts_with(&format!("usage: sprondilu {} ", name)),
            "{}",
            text
        );
        for line in [
            format!("{} -h", name),
            format!("help {}", name),
            format!("{} --no-option a b c --help", name),
            format!("{} --json --help", name),
        ] {
            assert_eq!(help(&folder, &line), text, "{}", line);
        }
        assert!(help(&folder, "--help").contains(&format!("\n  {} ", name)));
    }
    assert!(folder.names().is_empty());
}

/// The help names the options that the command takes, and no others: each is tried.
#[test]
fn the_help_names_the_options_that_are_taken() {
    let folder = Folder::new();
    for (name, alone, valued) in COMMANDS {
        let text = help(&folder, &format!("{} --help", name));
        for option in OPTIONS {
            let taken = alone.contains(&option) || valued.contains(&option);
            assert_eq!(
                words(&text).contains(&option),
                taken,
                "{} of {}",
                option,
                name
            );
            let err = run(&folder, &format!("{} {}", name, option)).err;
            assert_eq!(!err.contains("there is no option"), taken, "{}", err);
            let needs_value = err.contains("needs a value");
            assert_eq!(needs_value, valued.contains(&option), "{}", err);
        }
    }
    assert!(folder.names().is_empty());
}

#[test]
fn the_help_of_the_program() {
    let folder = Folder::new();
    let text = help(&folder, "--help");
    assert_eq!(help(&folder, "help"), text);
    assert_eq!(help(&folder, "-h"), text);
    assert_eq!(help(&folder, "help --help"), text);
    for said in ["exit status", "  0  done", "  1  refused", "  2  bad usage"] {
        assert!(text.contains(said), "{}", text);
    }
}

/// Each number that a command can give stands in its help, with its name.
#[test]
fn the_help_names_the_refusals() {
    let folder = Folder::new();
    let numbers: [(&str, &[usize]); 7] = [
        ("show", &[2, 3]),
        ("check", &[2, 3]),
        ("fresh", &[3]),
        ("message", &[2, 3]),
        ("answer", &[2, 3, 4, 5, 6, 7, 8, 9, 10]),
        ("merge", &[2, 5, 6, 7, 11]),
        ("count", &[3, 6]),
    ];
    for (name, numbers) in numbers {
        let text = help(&folder, &format!("{} --help", name));
        let refusals = text.split("Refusal").nth(1).expect("the refusals");
        for (number, named) in crate::common::NAMES.iter().enumerate() {
            let said = refusals.contains(&format!("{} {}", number, named));
            assert_eq!(
                said,
                numbers.contains(&number),
                "{} {} of {}",
                number,
                named,
                name
            );
        }
    }
}

#[test]
fn words_that_name_no_command() {
    let folder = Folder::new();
    run(&folder, "").bad_usage("which command?");
    run(&folder, "shows a").bad_usage("there is no command 'shows'");
    run(&folder, "--json").bad_usage("there is no command '--json'");
    run(&folder, "help shows").bad_usage("there is no command 'shows'");
    run(&folder, "shows --help").bad_usage("there is no command 'shows'");
    run_words(&folder, &[""]).bad_usage("there is no command ''");
}

/// Behind `--` no word is an option: neither one of the command's nor one that asks for help.
#[test]
fn behind_two_hyphens_all_words_are_names() {
    let folder = Folder::new();
    run(&folder, "fresh --n 3 --box 0 -- --json").done();
    run(&folder, "fresh --n 3 --box 1 -- --help").done();
    run(&folder, "fresh --n 3 --box 2 -- --").done();
    assert_eq!(folder.names(), ["--", "--help", "--json"]);
    assert!(run(&folder, "show -- --json")
        .done()
        .out
        .starts_with("box 0 of 3\n"));
    assert!(run(&folder, "show -- --help")
        .done()
        .out
        .starts_with("box 1 of 3\n"));
    assert!(run(&folder, "show -- --")
        .done()
        .out
        .starts_with("box 2 of 3\n"));
    run(&folder, "show --json -- --json").done().json();
}

/// Words of all kinds. The first seven are commands.
const WORDS: &str = "show check fresh message answer merge count t m t m --json --reply --message --n 3 5 --box 0 --view 1 \
    --out x --replace -- propose-prepare 1:1 write read 5=7 5@0 change-view view OK - . 0x = --n=3 --out=x --at : EMPTY";

/// Words in any order end with 0, 1 or 2, and say something.
#[test]
fn no_words_make_the_program_fall_over() {
    let folder = Folder::new();
    let mut dice = samples::Dice::seeded(81);
    folder.put("t", &crate::common::boxes::long_table(3));
    folder.put("m", &samples::message::change_view(1));
    let words: Vec<&str> = WORDS.split_whitespace().collect();
    for _ in 0..600 {
        let mut line = vec![words[dice.index(7)]];
        for _ in 0..dice.index(7) {
            let word = words[dice.index(words.len())];
            line.push(if word == "EMPTY" { "" } else { word });
        }
        let ran = run_words(&folder, &line);
        assert!(matches!(ran.status, Some(0..=2)), "{:?}", ran);
        assert_eq!(ran.err.is_empty(), ran.status != Some(2), "{:?}", ran);
        assert_ne!(ran.out.is_empty(), ran.err.is_empty(), "{:?}", ran);
    }
}
