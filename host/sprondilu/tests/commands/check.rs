//! `check`

use crate::common::boxes::long_table;
use crate::common::ran::{bad_usage, not_tried, refused};
use crate::common::{run, Folder, History};
use samples::{message as make, random, Dice};

#[test]
fn good_files_are_good() {
    let folder = Folder::new();
    let mut dice = Dice::seeded(31);
    for rows in [0, 1, 5, 512] {
        let image = random::table(&mut dice, rows).image();
        folder.put("a", &[&image[..], &[7; 11]].concat());
        let told = run(&folder, "check --json a").done().json();
        assert_eq!(told.number("number"), Some(0));
        assert_eq!(
            told.at(&["header"]).number("length"),
            Some(image.len() as u64)
        );
        assert_eq!(told.number("bytes_behind"), Some(11));
        let out = run(&folder, "check a").done().out;
        assert!(out.starts_with("a: well formed: a table of box"), "{}", out);
        assert!(out.contains("11 bytes follow"), "{}", out);
    }
    let mut history = History::seeded(32);
    for _ in 0..40 {
        let message = history.message();
        let (number, reply) = history.answer(&message);
        folder.put("m", &message);
        folder.put("r", &reply);
        if number == 0 {
            let told = run(&folder, "check --json --message m").done().json();
            assert_eq!(told.number("kind"), Some(u64::from(message[0])));
            assert_eq!(told.number("length"), Some(message.len() as u64));
        }
        let told = run(&folder, "check --json --reply r").done().json();
        assert_eq!(told.number("reply_number"), Some(u64::from(number)));
        let out = run(&folder, "check --reply r").done().out;
        assert!(
            out.starts_with("r: well formed: a reply numbered"),
            "{}",
            out
        );
    }
}

/// Each kind of damage to a table, and the byte at which a person would look.
#[test]
fn a_bad_table_is_refused_with_what_is_wrong_and_where() {
    let folder = Folder::new();
    let good = long_table(2);
    let mut cases: Vec<(usize, u8, u64, &str)> = vec![
        (0, 2, 0, "format"),
        (1, 3, 1, "box"),
        (2, 4, 2, "n is 4"),
        (3, 2, 3, "mode"),
        (4, 1, 4, "rows"),
        (11, 1, 12, "promised"),
        (15, 1, 12, "promised"),
        (19, 3, 16, "began"),
        (23, 89, 20, "length"),
        (24, 1, 24, "stamp"),
        (39, 1, 32, "the retry stamp is 0:1, "),
        (43, 71, 40, "offset"),
        (44, 5, 44, "reads"),
        (45, 5, 45, "writes"),
        (45, 0, 44, "neither"),
        (46, 9, 46, "prepare"),
        (46, 0, 46, "both 0"),
        (46, 4, 32, "RETRY"),
        (47, 5, 47, "outcome"),
        (72, 64, 72, "register 64"),
    ];
    // The second row with the first one's stamp.
    cases.push((53, 1, 48, "the stamp 1:1 behind the stamp 1:1: they rise"));
    for (place, byte, named, words) in cases {
        let mut bytes = good.clone();
        bytes[place] = byte;
        folder.put("a", &bytes);
        let (reason, at) = refused(&folder, "check a", 2);
        assert!(reason.contains(words), "{} in {}", words, reason);
        assert_eq!(at, Some(named), "{}", reason);
    }
}

/// A message with one byte changed.
fn with(mut message: Vec<u8>, place: usize, byte: u8) -> Vec<u8> {
    message[place] = byte;
    message
}

/// Has each message refused at its byte, with the words.
fn assert_wrong(cases: Vec<(Vec<u8>, u64, &str)>) {
    let folder = Folder::new();
    for (message, byte, words) in cases {
        folder.put("m", &message);
        let (reason, at) = refused(&folder, "check --message m", 3);
        assert!(reason.contains(words), "{} in {}", words, reason);
        assert_eq!(at, Some(byte), "{}", reason);
    }
}

#[test]
fn a_bad_proposal_is_refused_with_what_is_wrong_and_where() {
    let row = samples::row_of_the_paper(0);
    let prepare = make::propose_prepare(&row);
    let outcome = make::propose_outcome(&row, 1);
    assert_wrong(vec![
        (with(prepare.clone(), 1, 1), 1, "stamp"),
        (with(prepare.clone(), 9, 5), 9, "reads"),
        (with(prepare.clone(), 10, 5), 10, "writes"),
        (with(prepare.clone(), 10, 0), 9, "neither"),
        (with(prepare.clone(), 11, 64), 11, "register 64"),
        (prepare[..19].to_vec(), 19, "ends here"),
        ([&prepare[..], &[0]].concat(), 20, "ends here"),
        (with(outcome.clone(), 9, 3), 9, "outcome is 3"),
        (with(outcome.clone(), 11, 5), 11, "writes"),
        (with(outcome, 12, 64), 12, "register 64"),
    ]);
}

#[test]
fn another_bad_message_is_refused_with_what_is_wrong_and_where() {
    let finalise = make::finalise_prepare(9, 0, (1, 0));
    let done = make::finalise_outcome(9, 0, 1);
    assert_wrong(vec![
        (vec![], 0, "empty"),
        (vec![8; 20], 0, "kind is 8"),
        (with(finalise.clone(), 13, 5), 13, "result is 5"),
        (with(finalise, 21, 1), 14, "retry"),
        (with(done, 13, 0), 13, "outcome is 0"),
        (make::change_view(7)[..4].to_vec(), 4, "ends here"),
        (
            make::start_view(0, &long_table(1)),
            5 + 16,
            "begins with 0 rows",
        ),
        (make::start_view(7, &long_table(1)), 5 + 8, "view 0"),
        (vec![6, 0, 0, 0, 1], 5, "header"),
        (make::read(9, 64), 9, "register is 64"),
    ]);
}

#[test]
fn a_bad_reply_is_refused_with_where_it_is_wrong() {
    let folder = Folder::new();
    for (place, byte, named) in [(0, 12, 0), (0, 1, 0), (0, 11, 0), (5, 1, 5), (23, 9, 23)] {
        let mut reply = [0; 24];
        reply[0] = 2;
        reply[place] = byte;
        folder.put("r", &reply);
        assert_eq!(refused(&folder, "check --reply r", 3).1, Some(named));
    }
}

#[test]
fn words_that_make_no_sense() {
    let folder = Folder::new();
    folder.put("a", &crate::common::fresh(3, 0));
    bad_usage(&folder, "check", "the file is missing");
    bad_usage(&folder, "check a a", "'a' is one word too many");
    bad_usage(
        &folder,
        "check --message --reply a",
        "--message and --reply",
    );
    bad_usage(&folder, "check --strict a", "there is no option --strict");
    not_tried(&folder, "check missing", "cannot read missing");
}
