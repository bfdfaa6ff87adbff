//! A disk that is full: a small file system in memory, mounted where only this test sees it.

use crate::common::Folder;
use crate::{adding, Case};
use std::fs;
use std::process::{Command, Output};

/// Mounts a disk of so many pages with the table and the message on it, fills all but so many of them, and has the message
/// answered: with that little room, and again after room was made. What is then where is copied out.
const SCRIPT: &str = r#"
set -u
program=$1 pages=$2 free=$3
mount -t tmpfs -o size=$((pages * 4096)),mode=777 none disk || exit 77
cp t m disk/ || exit 77
dd if=/dev/zero of=disk/filling bs=4096 2>dd
# What is left over for the run.
if [ "$free" -gt 0 ]; then
    size=$(stat -c %s disk/filling)
    truncate -s $((size - free * 4096)) disk/filling || exit 77
fi
"$program" answer disk/t disk/m --reply disk/r >out 2>err
echo $? >status
cp disk/t after-t
[ -e disk/r ] && cp disk/r after-r
ls -A disk >names
rm disk/filling
"$program" answer disk/t disk/m --reply disk/r --replace >out-again 2>err-again
echo $? >status-again
cp disk/t again-t
cp disk/r again-r
ls -A disk >names-again
umount disk
exit 0
"#;

/// Runs the script where it may mount; nothing if that cannot be had here.
fn on_a_full_disk(folder: &Folder, pages: usize, free: usize) -> Option<Output> {
    let namespaces: [&[&str]; 2] = [&["-m"], &["-U", "-r", "-m"]];
    for how in namespaces {
        let run = Command::new("unshare")
            .args(how)
            .args(["sh", "-c", SCRIPT, "sh", env!("CARGO_BIN_EXE_sprondilu")])
            .args([pages.to_string(), free.to_string()])
            .current_dir(folder.path())
            .output();
        match run {
            Ok(output) if output.status.success() => return Some(output),
            _ => {}
        }
    }
    None
}

fn text(case: &Case, name: &str) -> String {
    String::from_utf8(case.folder.bytes(name)).expect("text")
}

/// What the script copied out: the table is the old one or the new one, and the error says which. Says whether it is the new one.
fn is_new(case: &Case, what: &str) -> bool {
    let after = case.folder.bytes("after-t");
    assert!(after == case.old || after == case.new, "{}", what);
    let (is_new, has_reply) = (after == case.new, case.folder.has("after-r"));
    if text(case, "status") == "0\n" {
        assert!(is_new && has_reply, "{}", what);
        return true;
    }
    let err = text(case, "err");
    assert_eq!(text(case, "status"), "2\n", "{}", what);
    assert!(err.contains("No space left on device"), "{}", what);
    assert!(text(case, "out").is_empty() && !has_reply, "{}", what);
    assert_eq!(text(case, "names"), "filling\nm\nt\n", "{}", what);
    assert_eq!(is_new, err.contains("is stored"), "{}", what);
    is_new
}

/// After room was made, the same line works.
fn assert_goes_on(case: &Case, what: &str) {
    assert_eq!(text(case, "status-again"), "0\n", "{}", what);
    assert_eq!(text(case, "names-again"), "m\nr\nt\n", "{}", what);
    assert!(case.folder.bytes("again-t") == case.new, "{}", what);
    assert_eq!(case.folder.bytes("again-r"), case.reply, "{}", what);
}

#[test]
fn a_full_disk_keeps_the_table() {
    // A table of several pages, so that it is sometimes written in part.
    let case = adding(500);
    let pages = case.new.len() / 4096 + 1;
    let (mut old, mut new) = (0, 0);
    // With room for both drafts the run goes through.
    for free in 0..=pages + 2 {
        case.begin();
        fs::create_dir(case.folder.at("disk")).expect("a folder");
        let mounted = on_a_full_disk(&case.folder, 4 * pages, free);
        if mounted.is_none() && free == 0 {
            eprintln!("Nothing can be mounted here: a full disk was not tried.");
            return;
        }
        assert!(
            mounted.is_some(),
            "mounted before, and not with {} pages free",
            free
        );
        let (status, err) = (text(&case, "status"), text(&case, "err"));
        let what = format!("{} pages free: {}{}", free, status, err);
        let stored = is_new(&case, &what);
        *(if stored { &mut new } else { &mut old }) += 1;
        assert_goes_on(&case, &what);
        fs::remove_dir(case.folder.at("disk")).expect("the folder");
    }
    assert!(old >= pages && new >= 2, "{} and {}", old, new);
}
