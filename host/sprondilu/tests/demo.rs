//! The demo: what it plays is what the second program makes of the same messages, and it tells what it plays.

use std::collections::{BTreeMap, BTreeSet};
use std::fs;
use std::path::{Path, PathBuf};
use std::process::{Command, Output};

const TABLE_BYTES: usize = 49_176;

fn demo(words: &[&str]) -> Output {
    let program = env!("CARGO_BIN_EXE_sprondilu");
    let run = Command::new(program).arg("demo").args(words).output();
    run.expect("the program")
}

fn told(done: &Output) -> String {
    let said = String::from_utf8_lossy(&done.stderr);
    assert!(done.status.success(), "{}", said);
    assert!(said.is_empty(), "{}", said);
    String::from_utf8(done.stdout.clone()).expect("words")
}

/// A folder that is not there yet.
fn folder(name: &str) -> PathBuf {
    let folder = Path::new(env!("CARGO_TARGET_TMPDIR")).join(name);
    let _ = fs::remove_dir_all(&folder);
    folder
}

/// The files of a group with their names, in the order in which they came about: a message before its replies, and the tables
/// that boxes have at the end behind all.
fn kept(group: &Path) -> Vec<(String, Vec<u8>)> {
    let mut files: Vec<(String, Vec<u8>)> = Vec::new();
    for entry in fs::read_dir(group).expect("a folder of the group") {
        let path = entry.expect("a file").path();
        let name = path.file_name().expect("a name").to_string_lossy();
        files.push((name.into_owned(), fs::read(&path).expect("its bytes")));
    }
    files.sort_by_key(|(name, _)| {
        let step = name.split('-').next().and_then(|word| word.parse().ok());
        (
            step.unwrap_or(u32::MAX),
            !name.ends_with(".message"),
            name.clone(),
        )
    });
    files
}

/// A group of the second program, and what the demo's files are held to.
struct Second {
    buffers: Vec<Vec<u8>>,
    message: Vec<u8>,
    replies: usize,
    merges: usize,
}

impl Second {
    fn fresh(n: u8) -> Second {
        let fresh = |box_number| {
            let mut buffer = vec![0; TABLE_BYTES];
            assert_eq!(reference::fresh(&mut buffer, n, box_number), 0);
            buffer
        };
        Second {
            buffers: (0..n).map(fresh).collect(),
            message: Vec::new(),
            replies: 0,
            merges: 0,
        }
    }

    fn image(&self, box_number: usize) -> &[u8] {
        let buffer = &self.buffers[box_number];
        let length = u32::from_be_bytes(buffer[20..24].try_into().expect("four bytes"));
        &buffer[..length as usize]
    }

    /// Takes one file: `07-propose-prepare.message`, `07-box2.reply`, `19-merge-of-0-2.table` or `box2.table`.
    fn take(&mut self, name: &str, bytes: &[u8]) {
        let number = |word: &str| word.parse::<usize>().expect("a number");
        let (stem, ending) = name.rsplit_once('.').expect("an ending");
        if let Some(boxes) = stem.split_once("-merge-of-") {
            let boxes: Vec<usize> = boxes.1.split('-').map(number).collect();
            self.merged(name, &boxes, bytes);
        } else if ending == "message" {
            self.message = bytes.to_vec();
        } else if ending == "reply" {
            let (_, box_number) = stem.split_once("-box").expect("a box");
            self.answered(name, number(box_number), bytes);
        } else {
            let box_number = stem.strip_prefix("box").expect("a box's table");
            assert_eq!(self.image(number(box_number)), bytes, "{}", name);
        }
    }

    fn answered(&mut self, name: &str, box_number: usize, bytes: &[u8]) {
        let mut reply = [0xee; 24];
        let number = reference::answer(&mut self.buffers[box_number], &self.message, &mut reply);
        assert_eq!(reply, bytes, "{}: number {}", name, number);
        self.replies += 1;
    }

    fn merged(&mut self, name: &str, boxes: &[usize], bytes: &[u8]) {
        let run: Vec<u8> = boxes.iter().flat_map(|b| self.image(*b).to_vec()).collect();
        let view = u32::from_be_bytes(bytes[8..12].try_into().expect("four bytes"));
        let mut out = vec![0; TABLE_BYTES];
        assert_eq!(reference::merge(&run, view, &mut out), 0, "{}", name);
        assert_eq!(&out[..bytes.len()], bytes, "{}", name);
        self.merges += 1;
    }
}

#[test]
fn the_second_program_plays_the_same() {
    let folder = folder("demo-files");
    let text = told(&demo(&[
        "--keep",
        folder.to_str().expect("a path in words"),
    ]));
    assert!(text.contains(&format!("Its files are in {}.", folder.display())));
    for (name, n, replies) in [("three", 3, 40), ("five", 5, 60)] {
        let mut second = Second::fresh(n);
        let files = kept(&folder.join(name));
        for (name, bytes) in &files {
            second.take(name, bytes);
        }
        assert!(second.replies >= replies, "only {} replies", second.replies);
        assert_eq!(second.merges, 1);
        let tables = files.iter().filter(|(name, _)| name.starts_with("box"));
        assert_eq!(tables.count(), usize::from(n));
    }
}

#[test]
fn it_tells_what_the_readme_promises() {
    let text = told(&demo(&[]));
    for words in [
        "PART 1. THREE BOXES",
        "PART 2. FIVE BOXES",
        "A fast commit",
        "A clash",
        "Lost messages",
        "A view change",
        "fast OK",
        "slow OK",
        "tentative ABSTAIN",
        "does not hear it",
        "refused with 4 changing",
        "The merge of the tables of boxes 0, 2, for view 1.",
        "The merge of the tables of boxes 2, 3, 4, for view 1.",
    ] {
        assert!(text.contains(words), "nothing is said of: {}", words);
    }
}

#[test]
fn each_word_of_the_answers_is_explained_first() {
    let text = told(&demo(&[]));
    let text = text.to_lowercase();
    let (before, after) = text.split_once("part 1.").expect("a first part");
    for word in [
        "tentative",
        "final",
        "declared",
        "recorded",
        "accepted",
        "count",
        "fast",
        "slow",
        "quorum",
        "promise",
        "merge",
        "noted",
        "done",
        "ok",
        "abstain",
        "commit",
        "abort",
        "view",
        "register",
        "5=7",
    ] {
        assert!(before.contains(word) && after.contains(word), "{}", word);
    }
    let longest = text.lines().map(|line| line.chars().count()).max();
    assert!(longest <= Some(80), "{:?}", longest);
}

/// The commits that a quorum of boxes has accepted in one view, by the replies to message 3 that were kept: stamp, view, and
/// how many boxes.
fn recorded(files: &[(String, Vec<u8>)], n: u8) -> Vec<(u64, u32, usize)> {
    let mut accepted: BTreeMap<(u64, u32), BTreeSet<u8>> = BTreeMap::new();
    for (name, bytes) in files {
        let is_noted = name.ends_with(".reply") && bytes[..2] == [0, 3] && bytes[3] == 1;
        if is_noted {
            let view = u32::from_be_bytes(bytes[4..8].try_into().expect("four bytes"));
            let stamp = u64::from_be_bytes(bytes[8..16].try_into().expect("eight bytes"));
            let boxes = accepted.entry((stamp, view)).or_default();
            boxes.insert(bytes[2]);
        }
    }
    let quorum = usize::from(n / 2) + 1;
    let counted = accepted.iter();
    let counted = counted.map(|((stamp, view), boxes)| (*stamp, *view, boxes.len()));
    counted.filter(|(_, _, boxes)| *boxes >= quorum).collect()
}

/// "An entry is recorded when f+1 different boxes have accepted its commit in one view, and not before."
#[test]
fn recorded_is_said_of_what_a_quorum_has_accepted_in_one_view() {
    let folder = folder("demo-recorded");
    let text = told(&demo(&[
        "--keep",
        folder.to_str().expect("a path in words"),
    ]));
    let text: Vec<&str> = text.split_whitespace().collect();
    let text = text.join(" ");
    let (_, text) = text.split_once("PART 1.").expect("a first part");
    let (text, _) = text.split_once("WHAT YOU HAVE SEEN").expect("an end");
    let mut said = 0;
    for (name, n) in [("three", 3), ("five", 5)] {
        for (stamp, view, boxes) in recorded(&kept(&folder.join(name)), n) {
            let (time, client) = (stamp >> 16, stamp & 0xffff);
            let line = format!(
                "{} of {} boxes have accepted the commit in view {}: {}:{} is recorded",
                boxes, n, view, time, client
            );
            let (before, _) = text.split_once(&line).expect(&line);
            assert!(before.contains("will be recorded, if the handset lives"));
            said += 1;
        }
    }
    assert_eq!(said, 7);
    assert_eq!(text.matches("is recorded").count(), said);
}

#[test]
fn every_merge_holds_what_was_declared_and_recorded() {
    let folder = folder("demo-merges");
    told(&demo(&[
        "--keep",
        folder.to_str().expect("a path in words"),
    ]));
    for (name, recorded, declared) in [
        ("three", vec![(1, 1), (2, 1), (4, 2), (5, 1)], vec![]),
        ("five", vec![(2, 1), (5, 1)], vec![(1, 3)]),
    ] {
        let files = kept(&folder.join(name));
        let merge = files.iter().find(|(name, _)| name.contains("-merge-of-"));
        let (table, _) = reference::Table::parse(&merge.expect("a merge").1).expect("a table");
        for (time, client) in recorded.iter().chain(&declared) {
            let row = &table.rows[&(time * 65_536 + client)];
            let ok = reference::HeldPrepare::finalised(reference::PrepareResult::Ok);
            assert_eq!(row.prepare, Some(ok), "{}: {}:{}", name, time, client);
            let done = reference::HeldOutcome::done(reference::Outcome::Commit);
            let is_done = row.outcome == Some(done);
            let is_recorded = recorded.contains(&(*time, *client));
            assert_eq!(is_done, is_recorded, "{}: {}:{}", name, time, client);
        }
    }
}

#[test]
fn a_folder_that_is_there_is_left_alone() {
    let folder = folder("demo-there");
    fs::create_dir(&folder).expect("a folder");
    let done = demo(&["--keep", folder.to_str().expect("a path in words")]);
    assert_eq!(done.status.code(), Some(2));
    assert!(done.stdout.is_empty());
    assert!(String::from_utf8_lossy(&done.stderr).contains("cannot make the folder"));
    assert_eq!(fs::read_dir(&folder).expect("the folder").count(), 0);
}
