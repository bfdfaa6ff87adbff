//! Stamps as users type them and see them: `TIME:CLIENT`, and nothing else.

use crate::common::json::{READ, VERSION};
use crate::common::ran::bad_usage;
use crate::common::{fresh, run, Folder};
use samples::{message as make, random, Dice};

const OF_A_TRANSACTION: &str = "a stamp is TIME:CLIENT";
const OF_A_READ: &str = "a stamp is TIME:CLIENT, or --at TIME in its place";
const OF_A_RETRY: &str = "a retry stamp is TIME:CLIENT";
const VERSION_SEEN: &str = "a version is TIME:CLIENT, or 0 for never written";

/// Every place where a stamp is typed, and how one is said to be written there.
const PLACES: [(&str, &str); 8] = [
    ("propose-prepare STAMP write 5=7", OF_A_TRANSACTION),
    ("finalise-prepare STAMP view 0 OK", OF_A_TRANSACTION),
    ("finalise-prepare 2:1 view 0 RETRY STAMP", OF_A_RETRY),
    ("propose-outcome STAMP abort read 1@0", OF_A_TRANSACTION),
    ("finalise-outcome STAMP view 0 commit", OF_A_TRANSACTION),
    ("read STAMP register 5", OF_A_READ),
    ("propose-prepare 2:1 read 5@STAMP", VERSION_SEEN),
    ("propose-outcome 2:1 abort read 1@0 5@STAMP", VERSION_SEEN),
];

/// The words are no stamp: in no place are they taken, and no file is written. What is said of them is `wrong`; of a read
/// besides `of_a_read`.
fn assert_no_stamp(folder: &Folder, words: &str, wrong: &str, of_a_read: &str) {
    for (place, form) in PLACES {
        // As a version 0 is no mistake: it says that nobody had written the register.
        if words == "0" && form == VERSION_SEEN {
            continue;
        }
        let more = if form == OF_A_READ { of_a_read } else { "" };
        let line = format!("message {} --out m", place.replace("STAMP", words));
        let said = format!("message: {}; {}{}\nSee: ", form, wrong, more);
        bad_usage(folder, &line, &said);
    }
    assert!(folder.names().is_empty());
}

/// Numbers with nothing beside them, and what each may have been meant as.
#[rustfmt::skip]
const ALONE: [(&str, &str); 9] = [
    ("0", "as a time, say which client: 0:CLIENT"),
    ("1", "as one number it would be 0:1; as a time, say which client: 1:CLIENT"),
    ("1700500000", "as one number it would be 25947:37408; as a time, say which client: 1700500000:CLIENT"),
    ("0x10001", "as one number it would be 1:1; as a time, say which client: 0x10001:CLIENT"),
    ("4294967295", "as one number it would be 65535:65535; as a time, say which client: 4294967295:CLIENT"),
    ("4294967296", "as one number it would be 65536:0; times go from 0 to 4294967295"),
    ("281474976710655", "as one number it would be 4294967295:65535; times go from 0 to 4294967295"),
    ("281474976710656", "times go from 0 to 4294967295"),
    ("18446744073709551615", "times go from 0 to 4294967295"),
];

/// A number alone is taken neither for a stamp nor for a time.
#[test]
fn a_number_alone_is_refused_with_a_hint() {
    let folder = Folder::new();
    for (number, hint) in ALONE {
        let wrong = format!("{} alone is no stamp: {}", number, hint);
        let at = format!(", or --at {}", number);
        let of_a_read = Some(&*at).filter(|_| hint.contains("as a time"));
        assert_no_stamp(&folder, number, &wrong, of_a_read.unwrap_or(""));
    }
}

/// Words that are neither a stamp nor a number, and what is said of them.
#[rustfmt::skip]
const NO_STAMPS: [(&str, &str); 12] = [
    ("5:", "the client is missing in '5:'"),
    (":5", "the time is missing in ':5'"),
    (":", "the time is missing in ':'"),
    ("0:0", "0:0 is no stamp, the first is 0:1"),
    ("4294967296:0", "a time is a number from 0 to 4294967295, not '4294967296'"),
    ("-1:1", "a time is a number from 0 to 4294967295, not '-1'"),
    ("1:65536", "a client is a number from 0 to 65535, not '65536'"),
    ("1:+1", "a client is a number from 0 to 65535, not '+1'"),
    ("1:2:3", "a client is a number from 0 to 65535, not '2:3'"),
    ("-1", "'-1' is none"),
    ("now", "'now' is none"),
    ("18446744073709551616", "'18446744073709551616' is none"),
];

#[test]
fn what_is_no_time_and_client_is_refused() {
    let folder = Folder::new();
    for (words, wrong) in NO_STAMPS {
        assert_no_stamp(&folder, words, wrong, "");
    }
}

/// What is no time, and times where there is no place for one.
#[rustfmt::skip]
const NO_TIMES: [(&str, &str); 14] = [
    ("read --at 4294967296 register 5", "--at is a time from 0 to 4294967295, not '4294967296'"),
    ("read --at 2:1 register 5", "--at is a time from 0 to 4294967295, not '2:1'"),
    ("read --at= register 5", "--at is a time from 0 to 4294967295, not ''"),
    ("read --at 2 2:1 register 5", "behind --at TIME, which takes the stamp's place, not '2:1'"),
    ("read 2:1 register 5 --at 2", "behind --at TIME, which takes the stamp's place, not '2:1'"),
    ("read --at 2 --at 3 register 5", "--at is given twice"),
    ("read --at 2", "the register is missing"),
    ("read register 5", "a stamp is TIME:CLIENT, or --at TIME in its place; 'register' is none"),
    ("propose-prepare --at 2 write 5=7", "--at is for read, and not for propose-prepare"),
    ("finalise-prepare 2:1 view 0 OK --at 2", "--at is for read, and not for finalise-prepare"),
    ("propose-outcome 2:1 abort read 5@0 --at 2", "--at is for read, and not for propose-outcome"),
    ("finalise-outcome 2:1 view 0 abort --at 2", "--at is for read, and not for finalise-outcome"),
    ("change-view 2 --at 2", "--at is for read, and not for change-view"),
    ("start-view 2 t --at 2", "--at is for read, and not for start-view"),
];

#[test]
fn a_time_is_given_for_reads_alone_and_in_place_of_a_stamp() {
    let folder = Folder::new();
    for (words, said) in NO_TIMES {
        bad_usage(&folder, &format!("message {} --out m", words), said);
    }
    assert!(folder.names().is_empty());
}

/// Has a box answer the message of these words, and hands back what it says.
fn answered(folder: &Folder, words: &str) -> String {
    run(folder, &format!("message {} --out m --replace", words)).done();
    run(folder, "answer t m --reply r --replace").done().out
}

/// A fresh box in which these commits are done.
fn box_with(commits: &[&str]) -> Folder {
    let folder = Folder::new();
    folder.put("t", &fresh(3, 0));
    for commit in commits {
        let (stamp, body) = commit.split_once(' ').expect("a stamp and a body");
        answered(
            &folder,
            &format!("propose-outcome {} commit {}", stamp, body),
        );
        answered(
            &folder,
            &format!("finalise-outcome {} view 0 commit", stamp),
        );
    }
    folder
}

/// A read at a time finds what was written up to that time and at it, by whichever client, and nothing later.
#[test]
fn a_read_at_a_time_finds_what_was_written_up_to_then() {
    let written = (1_700_482_400 << 16) + 65_535;
    let folder = box_with(&["1700482400:65535 write 5=7"]);
    for (time, version) in [
        (1_700_500_000, Some(written)),
        (1_700_482_400, Some(written)),
        (1_700_482_399, None),
    ] {
        let out = answered(&folder, &format!("read --at {} register 5", time));
        let found = version.map_or("never written", |_| "7, written by 1700482400:65535");
        let said = format!("register 5 as of {}:65535: {};", time, found);
        assert!(out.contains(&said), "{} in {}", said, out);
        let told = run(&folder, "answer t m --json").done().json();
        assert_eq!(told.stamp(VERSION), version);
        assert_eq!(told.text("value"), version.map(|_| "7"));
        assert_eq!(told.stamp(READ), Some((time << 16) + 65_535));
    }
}

/// The word behind these words in what was printed, up to a space or a mark.
fn word_behind<'a>(out: &'a str, words: &str) -> &'a str {
    let (_, rest) = out
        .split_once(words)
        .unwrap_or_else(|| panic!("{} in {}", words, out));
    let end = rest.find(|letter: char| letter != ':' && !letter.is_alphanumeric());
    &rest[..end.expect("the end of the word")]
}

/// What boxes and counts say of a stamp is typed as it was printed.
#[test]
fn what_is_printed_can_be_typed_in_again() {
    let folder = box_with(&["7:65535 write 5=7", "1700482400:3 read 5@7:65535"]);
    let out = answered(&folder, "read --at 1700500000 register 5");
    let version = word_behind(&out, "written by ");
    // A write below a committed read: RETRY with its stamp.
    let out = answered(&folder, "propose-prepare 4000:0 write 5=8");
    let shown = run(&folder, "show --reply r").done().out;
    let counted = run(&folder, "count --n 3 r").done().out;
    for printed in [out, shown, counted] {
        let (retry, stamp) = (
            word_behind(&printed, "RETRY "),
            word_behind(&printed, " for "),
        );
        let line = format!(
            "message finalise-prepare {} view 0 RETRY {} --out n --replace",
            stamp, retry
        );
        run(&folder, &line).done();
        let expected = make::finalise_prepare(4000 << 16, 0, (4, (1_700_482_400 << 16) + 3));
        assert_eq!(folder.bytes("n"), expected, "{}", printed);
    }
    let again = format!("propose-outcome 1700482400:3 commit read 5@{}", version);
    assert!(answered(&folder, &again).contains("0 done"));
}

/// A row that `show` shows: its time and its client are typed as its stamp, with its body as it is printed; its number is not.
#[test]
fn a_row_that_is_shown_can_be_typed_in_again() {
    let folder = Folder::new();
    let table = random::table(&mut Dice::seeded(91), 40);
    folder.put("t", &table.image());
    let out = run(&folder, "show t").done().out;
    let (_, lines) = out.split_once("body\n").expect("the columns");
    assert_eq!(lines.lines().count(), table.rows.len());
    for (line, row) in lines.lines().zip(&table.rows) {
        let words: Vec<&str> = line.split_whitespace().collect();
        let body = words
            .iter()
            .position(|word| ["read", "write"].contains(word));
        let body = words[body.expect("a body")..].join(" ");
        let stamp = format!("{}:{}", words[1], words[2]);
        run(
            &folder,
            &format!(
                "message propose-prepare {} {} --out m --replace",
                stamp, body
            ),
        )
        .done();
        assert_eq!(folder.bytes("m"), make::propose_prepare(row), "{}", line);
        let hint = format!("as one number it would be {};", stamp);
        bad_usage(
            &folder,
            &format!("message propose-prepare {} {}", words[0], body),
            &hint,
        );
    }
}
