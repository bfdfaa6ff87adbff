//! The sessions with the program that the papers show are what happens: each command is run as it stands there, in a folder of its
//! own, and has to print what stands behind it.

use std::fs;
use std::path::{Path, PathBuf};
use std::process::{Command, Output};

/// The commands of a paper, each with what it says that the command prints.
fn session(paper: &str) -> Vec<(String, String)> {
    let mut found: Vec<(String, String)> = Vec::new();
    let mut is_open = false;
    for line in paper.lines() {
        if line.starts_with("```") {
            is_open = false;
        } else if let Some(command) = line.strip_prefix("$ sprondilu ") {
            found.push((command.to_string(), String::new()));
            is_open = true;
        } else if is_open {
            let last = found.last_mut().expect("a command before what it prints");
            last.1.push_str(line);
            last.1.push('\n');
        }
    }
    found
}

/// A folder of this name with nothing in it.
fn folder(name: &str) -> PathBuf {
    let folder = Path::new(env!("CARGO_TARGET_TMPDIR")).join(name);
    let _ = fs::remove_dir_all(&folder);
    fs::create_dir(&folder).expect("a folder");
    folder
}

fn run(command: &str, folder: &Path) -> Output {
    let run = Command::new(env!("CARGO_BIN_EXE_sprondilu"))
        .args(command.split_whitespace())
        .current_dir(folder)
        .output();
    run.expect("the program")
}

/// Runs what the paper shows, of which there are at least so many commands, on what is in the folder.
fn happens(paper: &str, at_least: usize, folder: &Path) {
    let top = Path::new(env!("CARGO_MANIFEST_DIR")).join("../..");
    let text = fs::read_to_string(top.join(paper)).expect("the paper");
    let session = session(&text);
    assert!(session.len() >= at_least, "only {} commands", session.len());
    for (command, printed) in session {
        let run = run(&command, folder);
        let said = String::from_utf8_lossy(&run.stderr);
        assert!(said.is_empty(), "{}: {}", command, said);
        assert_eq!(String::from_utf8_lossy(&run.stdout), printed, "{}", command);
        let refused = printed.contains(": refused with ");
        assert_eq!(run.status.code(), Some(i32::from(refused)), "{}", command);
    }
}

#[test]
fn the_session_of_the_readme_is_what_happens() {
    happens("README.md", 8, &folder("readme-session"));
}

/// A message, and the boxes that answer it.
type Step = (&'static str, &'static [u8]);

/// The season of the certifier's page, by the rules. 1:1 is agreed fast. 2:1 is recorded by boxes 0 and 1, while box 2 is away. Of
/// 3:2 only box 2 hears. Then box 1 is away, and the others promise view 1.
const SEASON: [Step; 8] = [
    ("propose-prepare 1:1 write 5=7", &[0, 1, 2]),
    ("propose-outcome 1:1 commit write 5=7", &[0, 1, 2]),
    ("finalise-outcome 1:1 view 0 commit", &[0, 1, 2]),
    ("propose-prepare 2:1 read 5@1:1 write 5=9", &[0, 1]),
    ("finalise-prepare 2:1 view 0 OK", &[0, 1]),
    ("propose-outcome 2:1 commit read 5@1:1 write 5=9", &[0, 1]),
    ("propose-prepare 3:2 write 6=3", &[2]),
    ("change-view 1", &[0, 2]),
];

#[test]
fn the_session_of_the_certifiers_page_is_what_happens() {
    let folder = folder("certifier-session");
    let done = |command: &str| {
        let run = run(command, &folder);
        let said = String::from_utf8_lossy(&run.stdout).into_owned();
        assert!(run.status.success(), "{}: {}", command, said);
        said
    };
    for number in 0..3 {
        done(&format!("fresh --n 3 --box {0} box{0}.table", number));
    }
    for (place, (words, boxes)) in SEASON.iter().enumerate() {
        done(&format!("message {} --out {}.message", words, place));
        for number in boxes.iter() {
            let said = done(&format!("answer box{}.table {}.message", number, place));
            assert!(said.contains("the table is stored"), "{}: {}", words, said);
        }
    }
    happens("docs/CERTIFIER.md", 4, &folder);
}
