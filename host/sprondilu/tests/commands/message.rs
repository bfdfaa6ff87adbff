//! `message`

use crate::common::boxes::{long_table, settled};
use crate::common::ran::{bad_usage, not_tried, refused};
use crate::common::{fresh, hex, run, run_words, Folder, History};
use reference::{Body, Message, Outcome, PrepareResult};
use samples::{random, Dice};

/// A body from pairs of a register and a number.
fn body(reads: &[(u8, u64)], writes: &[(u8, u64)]) -> Body {
    Body {
        reads: reads.iter().copied().collect(),
        writes: writes.iter().copied().collect(),
    }
}

const TWO: u64 = 2 * 65_536 + 1;
const FOUR: u64 = 4 * 65_536 + 9;

/// Words as a user types them, and the message that they are.
type Typed = (&'static str, Message);

/// Two reads and two writes, with the least and the greatest of what they may have.
fn wide_body() -> Body {
    body(&[(0, 0), (63, 65_537)], &[(5, u64::MAX), (9, 0)])
}

fn prepares() -> Vec<Typed> {
    let prepare = |words, stamp, body| (words, Message::ProposePrepare { stamp, body });
    vec![
        prepare(
            "propose-prepare 1:1 write 5=7",
            65_537,
            body(&[], &[(5, 7)]),
        ),
        prepare(
            "propose-prepare 0x1:0x1 read 5@0 write 5=0x7",
            65_537,
            body(&[(5, 0)], &[(5, 7)]),
        ),
        // The lists in any order, and their accesses too.
        prepare(
            "propose-prepare 2:1 write 9=0 5=18446744073709551615 read 63@1:1 0@0",
            TWO,
            wide_body(),
        ),
        prepare(
            "propose-prepare 2:1 read 63@1:1 write 9=0 read 0@0 write 5=18446744073709551615",
            TWO,
            wide_body(),
        ),
    ]
}

fn final_results() -> Vec<Typed> {
    let finalise = |words, result| {
        let (stamp, view) = (TWO, 7);
        let message = Message::FinalisePrepare {
            stamp,
            view,
            result,
        };
        (words, message)
    };
    vec![
        finalise("finalise-prepare 2:1 view 7 OK", PrepareResult::Ok),
        finalise("finalise-prepare 2:1 view 7 abort", PrepareResult::Abort),
        finalise(
            "finalise-prepare 2:1 view 7 ABSTAIN",
            PrepareResult::Abstain,
        ),
        finalise(
            "finalise-prepare 2:1 view 7 RETRY 4:9",
            PrepareResult::Retry(FOUR),
        ),
    ]
}

fn outcomes() -> Vec<Typed> {
    let stamp = FOUR;
    let outcome = |outcome, body| Message::ProposeOutcome {
        stamp,
        outcome,
        body,
    };
    let done = |outcome| Message::FinaliseOutcome {
        stamp,
        view: u32::MAX,
        outcome,
    };
    vec![
        (
            "propose-outcome 4:9 commit read 63@1:1 0@0 write 9=0 5=18446744073709551615",
            outcome(Outcome::Commit, wide_body()),
        ),
        (
            "propose-outcome 4:9 abort read 1@0",
            outcome(Outcome::Abort, body(&[(1, 0)], &[])),
        ),
        (
            "finalise-outcome 4:9 view 4294967295 commit",
            done(Outcome::Commit),
        ),
        (
            "finalise-outcome 4:9 view 0xffffffff abort",
            done(Outcome::Abort),
        ),
    ]
}

fn views_and_reads() -> Vec<Typed> {
    let read = |words, stamp, register| (words, Message::Read { stamp, register });
    let last = |time: u64| time * 65_536 + 65_535;
    vec![
        ("change-view 0x10", Message::ChangeView { view: 16 }),
        read("read 4:9 register 63", FOUR, 63),
        read("read --at 4 register 63", last(4), 63),
        read("--at=0 read register 0", last(0), 0),
        read("read register 5 --at 0xffffffff", last(0xffff_ffff), 5),
    ]
}

#[test]
fn words_become_the_bytes_of_the_second_program() {
    let folder = Folder::new();
    let typed = [prepares(), final_results(), outcomes(), views_and_reads()];
    for (words, message) in typed.concat() {
        let bytes = message.bytes();
        let line = format!("message {} --out m", words);
        let out = run(&folder, &line).done().out;
        assert!(
            out.ends_with(&format!("({} bytes)\n", bytes.len())),
            "{}",
            out
        );
        assert_eq!(folder.bytes("m"), bytes, "{}", words);
        // Printed in digits, where no file is named.
        let out = run(&folder, &format!("message {}", words)).done().out;
        assert_eq!(out.lines().nth(1), Some(&*hex(&bytes)));
        let told = run(&folder, &format!("message --json {}", words)).done();
        assert_eq!(told.json().text("bytes"), Some(&*hex(&bytes)));
        folder.remove("m");
    }
}

/// `show --message` says a message in the words from which `message` writes it.
#[test]
fn what_show_says_is_what_message_takes() {
    let folder = Folder::new();
    let mut met = [0; 8];
    for seed in 1..20 {
        let mut history = History::seeded(seed);
        for _ in 0..14 {
            let message = history.message();
            history.answer(&message);
            let is_message = Message::parse(&message).is_some();
            if message.first() == Some(&6) || !is_message {
                continue;
            }
            folder.put("m", &message);
            let out = run(&folder, "show --message m").done().out;
            let words = out.lines().nth(1).expect("the words");
            run(&folder, &format!("message {} --out again", words)).done();
            assert_eq!(folder.bytes("again"), message, "{}", words);
            folder.remove("again");
            met[usize::from(message[0])] += 1;
        }
    }
    assert_eq!((met[0], met[6]), (0, 0));
    let others = [met[1], met[2], met[3], met[4], met[5], met[7]];
    assert!(others.iter().all(|times| *times > 5), "{:?}", met);
}

/// `propose-outcome like FILE`: the stamp and the body of a message that proposes a transaction.
#[test]
fn an_outcome_is_proposed_for_what_was_proposed() {
    let folder = Folder::new();
    let mut dice = Dice::seeded(42);
    for row in &random::table(&mut dice, 20).rows {
        for message in [
            samples::message::propose_prepare(row),
            samples::message::propose_outcome(row, 2),
        ] {
            folder.put("like", &message);
            for (code, outcome) in [(1, "commit"), (2, "abort")] {
                let line = format!("message propose-outcome like like {}", outcome);
                run(&folder, &format!("{} --out m --replace", line)).done();
                let expected = samples::message::propose_outcome(row, code);
                assert_eq!(folder.bytes("m"), expected);
            }
        }
    }
    folder.put("view", &samples::message::change_view(1));
    let line = "message propose-outcome like";
    bad_usage(
        &folder,
        &format!("{} view commit", line),
        "proposes no transaction",
    );
    bad_usage(&folder, line, "the message file is missing");
    bad_usage(&folder, &format!("{} like", line), "the outcome is missing");
    bad_usage(&folder, &format!("{} like commit more", line), "'more'");
    folder.put("bad", &folder.bytes("like")[1..]);
    refused(&folder, &format!("{} bad commit", line), 3);
}

/// The widest bodies that there are, in words and back.
#[test]
fn the_widest_bodies_go_both_ways() {
    let folder = Folder::new();
    let table = random::full_table(&mut Dice::seeded(41), 12);
    for row in &table.rows {
        let message = samples::message::propose_outcome(row, 2);
        folder.put("m", &message);
        let out = run(&folder, "show --message m").done().out;
        let words = out.lines().nth(1).expect("the words");
        let line = format!("message --out m --replace {}", words);
        folder.put("m", &samples::message::change_view(1));
        run(&folder, &line).done();
        assert_eq!(folder.bytes("m"), message);
    }
}

/// `start-view`: the image of the file, without what stands behind it.
#[test]
fn a_view_is_started_with_the_image_of_a_file() {
    let folder = Folder::new();
    for (view, behind) in [(1, 0), (7, 1), (4_000_000_000, 5_000)] {
        let image = settled(&long_table(3), view);
        folder.put("merged", &[image.clone(), vec![9; behind]].concat());
        let line = format!("message start-view {} merged --out m --replace", view);
        run(&folder, &line).done();
        let expected = samples::message::start_view(view, &image);
        assert_eq!(folder.bytes("m"), expected);
        let parsed = Message::parse(&expected).expect("a message");
        assert_eq!(parsed.bytes(), expected);
    }
    // Of another view, and of a box that does not begin it: bad messages, and no file.
    folder.remove("m");
    let image = settled(&long_table(3), 1);
    folder.put("merged", &image);
    let (reason, _) = refused(&folder, "message start-view 2 merged --out m", 3);
    assert!(reason.contains("the image is of view 1"), "{}", reason);
    folder.put("merged", &fresh(3, 1));
    let (reason, _) = refused(&folder, "message start-view 0 merged --out m", 3);
    assert!(reason.contains("the image is of box 1"), "{}", reason);
    // No table at all.
    folder.put("merged", &image[..image.len() - 1]);
    let (_, byte) = refused(&folder, "message start-view 1 merged --out m", 2);
    assert_eq!(byte, Some(image.len() as u64 - 1));
    not_tried(&folder, "message start-view 1 no --out m", "cannot read no");
    assert!(!folder.has("m"));
}

/// What the words may say and the rules do not allow, and what is said of it.
#[rustfmt::skip]
const AGAINST_THE_RULES: [(&str, &str); 12] = [
    ("propose-prepare 2:1", "neither a read nor a write"),
    ("propose-prepare 2:1 read", "neither a read nor a write"),
    ("propose-prepare 2:1 read 1@0 2@0 3@0 4@0 5@0", "5 reads"),
    ("propose-prepare 2:1 write 1=0 2=0 3=0 4=0 5=0", "5 writes"),
    ("propose-prepare 2:1 write 64=7", "a write of register 64"),
    ("propose-prepare 2:1 write 255=7", "a write of register 255"),
    ("propose-prepare 2:1 read 5@2:1", "2:1, which is not below"),
    ("propose-prepare 2:1 read 5@2:2", "2:2, which is not below"),
    ("propose-prepare 2:1 read 5@0 5@1:1", "two reads of register 5"),
    ("propose-prepare 2:1 write 5=1 5=2", "two writes of register 5"),
    ("propose-outcome 2:1 commit", "neither a read nor a write"),
    ("read 2:1 register 64", "the register is 64"),
];

/// Refused with 3, and no file is written.
#[test]
fn what_is_against_the_rules_is_refused() {
    let folder = Folder::new();
    for (words, says) in AGAINST_THE_RULES {
        // Nobody has seen its bytes: it is not said at which of them it is wrong.
        let (reason, byte) = refused(&folder, &format!("message {} --out m", words), 3);
        assert!(reason.contains(says), "{}: {}", words, reason);
        assert_eq!(byte, None, "{}", reason);
    }
    assert!(folder.names().is_empty());
}

#[test]
fn a_file_that_is_there_is_written_over_only_if_asked() {
    let folder = Folder::new();
    folder.put("m", &samples::message::change_view(9));
    not_tried(
        &folder,
        "message change-view 1 --out m",
        "m is there already",
    );
    run(&folder, "message change-view 1 --out m --replace").done();
    assert_eq!(folder.bytes("m"), [5, 0, 0, 0, 1]);
    run(&folder, "message change-view 2 --out=n --replace").done();
    assert_eq!(folder.names(), ["m", "n"]);
    not_tried(
        &folder,
        "message change-view 1 --out no/m",
        "cannot write no/m",
    );
    // Nothing but a message, or nothing at all, is written over: no table, whole or damaged, and no reply.
    let (whole, started) = (fresh(3, 0), settled(&long_table(3), 4));
    folder.put("whole", &whole);
    folder.put("damaged", &whole[..23]);
    folder.put("reply", &[&[4][..], &[0; 23]].concat());
    folder.put("merged", &started);
    for name in ["whole", "damaged", "reply"] {
        let line = format!("message change-view 1 --out {} --replace", name);
        not_tried(&folder, &line, "what is there is no message");
    }
    let line = "message start-view 4 merged --out merged --replace";
    not_tried(&folder, line, "what is there is no message");
    folder.put("empty", b"");
    run(&folder, "message change-view 1 --out empty --replace").done();
    not_tried(&folder, "message change-view 1 --out .", "folder");
    not_tried(&folder, "message change-view 1 --replace --out .", "folder");
}

/// Lines that make no sense, and what is said of each.
const NONSENSE: [(&str, &str); 28] = [
    ("", "the kind of message"),
    (
        "propose",
        "there is no message 'propose'; there are propose-prepare, finalise-prepare,",
    ),
    ("propose-prepare", "the stamp is missing"),
    (
        "propose-prepare 2:1 5=7",
        "read or write stands before '5=7'",
    ),
    ("propose-prepare 2:1 write 5@7", "'5@7'"),
    ("propose-prepare 2:1 read 5=7", "'5=7'"),
    ("propose-prepare 2:1 write 256=7", "'256'"),
    (
        "propose-prepare 2:1 write 5=18446744073709551616",
        "a value",
    ),
    ("propose-prepare 2:1 write 5=", "a value"),
    ("finalise-prepare 2:1 OK", "view V"),
    ("finalise-prepare 2:1 view 0", "the result is missing"),
    ("finalise-prepare 2:1 view 0 YES", "'YES'"),
    (
        "finalise-prepare 2:1 view 0 RETRY",
        "the retry stamp is missing",
    ),
    (
        "finalise-prepare 2:1 view 0 OK 3:1",
        "'3:1' is one word too many",
    ),
    ("finalise-prepare 2:1 view 4294967296 OK", "a view"),
    ("propose-outcome 2:1 write 5=7", "commit or abort"),
    ("finalise-outcome 2:1 view 0", "the outcome is missing"),
    ("finalise-outcome 2:1 view 0 done", "'done'"),
    ("change-view", "the view is missing"),
    ("change-view 1 2", "'2' is one word too many"),
    ("start-view 1", "the table file"),
    ("start-view", "the view is missing"),
    ("read 2:1", "the register is missing"),
    ("read 2:1 register", "the register is missing"),
    ("read 2:1 5", "register K"),
    ("change-view 1 --reply m", "there is no option --reply"),
    (
        "change-view 1 --replace",
        "--replace is for the file of --out",
    ),
    ("change-view 1 --out m --out n", "--out is given twice"),
];

#[test]
fn words_that_make_no_sense() {
    let folder = Folder::new();
    for (words, said) in NONSENSE {
        bad_usage(&folder, &format!("message {}", words), said);
    }
    let empty: [&str; 3] = ["message", "change-view", ""];
    run_words(&folder, &empty).bad_usage("''");
    assert!(folder.names().is_empty());
}
