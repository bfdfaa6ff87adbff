//! What a user may read and write.
//!
//! To root every file is open, so for root another user runs the program here; where that cannot be, the test says so.

use crate::bad::good_files;
use crate::common::{Folder, Ran};
use samples::message as make;
use std::fs::{self, Permissions};
use std::io::ErrorKind;
use std::os::unix::fs::{MetadataExt, PermissionsExt};
use std::os::unix::process::CommandExt;
use std::path::Path;
use std::process::Command;

const NOBODY: u32 = 65_534;

/// The owner of a table, the group that he shares it with, and a user who answers for it, by their numbers.
const OWNER: u32 = 1_000;
const SHARED: u32 = 2_000;
const ANOTHER: u32 = 1_001;

extern "C" {
    fn setgroups(how_many: usize, groups: *const u32) -> i32;
    fn setgid(group: u32) -> i32;
    fn setuid(user: u32) -> i32;
}

fn set_mode(path: &Path, mode: u32) {
    fs::set_permissions(path, Permissions::from_mode(mode)).expect("rights that are set");
}

fn mode(path: &Path) -> u32 {
    fs::metadata(path).expect("a file").mode() & 0o7777
}

/// Owner, group and mode.
fn rights(path: &Path) -> (u32, u32, u32) {
    let about = fs::metadata(path).expect("a file");
    (about.uid(), about.gid(), mode(path))
}

/// Root gives a file away.
fn give(path: &Path, owner: u32, group: u32) {
    let whom = format!("{}:{}", owner, group);
    let given = Command::new("chown").arg(whom).arg(path).status();
    assert!(given.expect("chown").success());
}

/// Makes the process that a command becomes this user's, with these groups beside his own, which has his number. Std of Rust 1.63
/// has no words for the groups.
fn become_user(command: &mut Command, user: u32, groups: &'static [u32]) {
    let become_him = move || {
        // The groups are lent for the call alone, and the other two touch no memory.
        let failed = unsafe {
            setgroups(groups.len(), groups.as_ptr()) != 0 || setgid(user) != 0 || setuid(user) != 0
        };
        match failed {
            true => Err(std::io::Error::last_os_error()),
            false => Ok(()),
        }
    };
    // Between fork and exec it calls the system and nothing else.
    unsafe { command.pre_exec(become_him) };
}

fn is_root(folder: &Folder) -> bool {
    fs::metadata(folder.path()).expect("the folder").uid() == 0
}

/// A folder in which a user who is not root finds the good files and the program, and may write.
struct Somebody {
    folder: Folder,
    is_root: bool,
}

impl Somebody {
    fn new() -> Somebody {
        let folder = Folder::below(&std::env::temp_dir());
        let good = good_files();
        for name in good.names() {
            folder.put(&name, &good.bytes(&name));
            set_mode(&folder.at(&name), 0o666);
        }
        let row = samples::row_of_the_paper(0);
        folder.put(
            "add",
            &make::propose_prepare(&samples::Row { stamp: 9, ..row }),
        );
        folder.put("read", &make::read(9, 5));
        // By another process: a file that is open for writing here, and so in a process that another test starts, cannot be run.
        let copied = Command::new("cp")
            .arg(env!("CARGO_BIN_EXE_sprondilu"))
            .arg(folder.at("program"))
            .status();
        assert!(copied.expect("cp").success());
        set_mode(&folder.at("program"), 0o755);
        set_mode(folder.path(), 0o777);
        let is_root = is_root(&folder);
        if is_root {
            // A file is replaced by one of the same owner only by that owner, or by root.
            for name in ["t", "m", "r", "add", "read"] {
                give(&folder.at(name), NOBODY, NOBODY);
            }
        }
        Somebody { folder, is_root }
    }

    /// A run by a user who is not root, unless there is no such user here.
    fn run(&self, line: &str) -> Option<Ran> {
        self.run_as(line, NOBODY, &[])
    }

    /// The same by this user, with these groups beside his own, if root starts it.
    fn run_as(&self, line: &str, user: u32, groups: &'static [u32]) -> Option<Ran> {
        let mut command = Command::new(self.folder.at("program"));
        command.current_dir(self.folder.path());
        command.args(line.split_whitespace());
        if self.is_root {
            become_user(&mut command, user, groups);
        }
        match command.output() {
            Ok(output) => Some(Ran::of(line.to_string(), output)),
            Err(error) if error.kind() == ErrorKind::PermissionDenied => {
                eprintln!("No other user can run the program here: rights were not tried.");
                None
            }
            Err(error) => panic!("{}", error),
        }
    }
}

#[test]
fn a_file_that_may_not_be_read() {
    let user = Somebody::new();
    for (name, lines) in [
        (
            "t",
            &[
                "show t",
                "check t",
                "answer t add",
                "merge --view 1 --out x t one",
            ][..],
        ),
        ("m", &["show --message m", "answer t m"]),
        ("r", &["show --reply r", "count --n 3 r"]),
    ] {
        // Neither may a file be read that may be written.
        for rights in [0o000, 0o222] {
            set_mode(&user.folder.at(name), rights);
            for line in lines {
                let before = user.folder.state();
                if let Some(ran) = user.run(line) {
                    ran.not_tried(&format!("cannot read {}", name));
                }
                assert!(user.folder.state() == before, "{}", line);
            }
        }
        set_mode(&user.folder.at(name), 0o666);
    }
}

/// A table that may only be read is read, and not replaced, though the folder would allow it.
#[test]
fn a_table_that_may_only_be_read() {
    let user = Somebody::new();
    set_mode(&user.folder.at("t"), 0o444);
    let before = user.folder.state();
    for (line, status) in [
        ("answer t read", 0),
        ("answer t m", 0),
        ("answer t r", 1),
        ("show t", 0),
    ] {
        if let Some(ran) = user.run(line) {
            assert_eq!(ran.status, Some(status), "{:?}", ran);
        }
    }
    if let Some(ran) = user.run("answer t add --reply new") {
        let ran = ran.not_tried("cannot write");
        assert!(ran.err.contains("denied"), "{:?}", ran);
    }
    assert!(user.folder.state() == before);
    set_mode(&user.folder.at("t"), 0o644);
    if let Some(ran) = user.run("answer t add --reply new") {
        ran.done();
    }
}

/// Nor is a message or a reply that may only be read.
#[test]
fn a_file_that_may_only_be_read_is_not_written_over() {
    let user = Somebody::new();
    for name in ["m", "r"] {
        set_mode(&user.folder.at(name), 0o444);
    }
    let before = user.folder.state();
    for line in [
        "message change-view 7 --out m --replace",
        "answer t read --reply r --replace",
    ] {
        if let Some(ran) = user.run(line) {
            let ran = ran.not_tried("cannot write");
            assert!(ran.err.contains("denied"), "{:?}", ran);
        }
        assert!(user.folder.state() == before, "{}", line);
    }
}

/// A folder in which nothing may be made: tables there are read, and not changed.
#[test]
fn a_folder_that_may_not_be_written() {
    let user = Somebody::new();
    set_mode(user.folder.path(), 0o555);
    let before = user.folder.state();
    if let Some(ran) = user.run("answer t read") {
        ran.done();
    }
    for line in [
        "answer t add",
        "fresh --n 3 --box 0 new",
        "merge --view 1 --out new zero one",
        "message change-view 1 --out new",
    ] {
        if let Some(ran) = user.run(line) {
            ran.not_tried("cannot write");
        }
        assert!(user.folder.state() == before, "{}", line);
    }
    set_mode(user.folder.path(), 0o777);
    if let Some(ran) = user.run("answer t add") {
        ran.done();
    }
}

/// Runs that replace a file, each with its name.
const REPLACED: [(&str, &str); 3] = [
    ("t", "answer t add"),
    ("m", "message change-view 1 --out m --replace"),
    ("r", "answer t read --reply r --replace"),
];

/// Has each of these files replaced: `before` sees to its rights, and `after` looks at them. In the end the table is the old one.
fn replace_each(
    user: &Somebody,
    before: impl Fn(&Path),
    run: impl Fn(&str) -> Option<Ran>,
    after: impl Fn(&Path, &str),
) {
    let old = user.folder.bytes("t");
    for (name, line) in REPLACED {
        let path = user.folder.at(name);
        before(&path);
        let inode = user.folder.inode(name);
        if let Some(ran) = run(line) {
            ran.done();
            assert_ne!(user.folder.inode(name), inode);
            after(&path, line);
        }
    }
    user.folder.put("t", &old);
}

#[test]
fn the_mode_of_a_file_stays() {
    let user = Somebody::new();
    for rights in [0o600, 0o640, 0o660, 0o604, 0o777] {
        replace_each(
            &user,
            |path| set_mode(path, rights),
            |line| user.run(line),
            |path, line| assert_eq!(mode(path), rights, "{}", line),
        );
    }
}

/// What replaces nothing has the mode that new files have.
#[test]
fn the_mode_of_a_new_file() {
    let user = Somebody::new();
    user.folder.put("usual", b"");
    for line in [
        "fresh --n 3 --box 0 new",
        "message change-view 1 --out new",
        "message change-view 1 --out new --replace",
        "answer t read --reply new",
    ] {
        if let Some(ran) = user.run(line) {
            ran.done();
            let usual = mode(&user.folder.at("usual"));
            assert_eq!(mode(&user.folder.at("new")), usual, "{}", line);
            user.folder.remove("new");
        }
    }
}

/// Whether owners and groups can be tried here; if not, it is said.
fn can_give(user: &Somebody) -> bool {
    if !user.is_root {
        eprintln!("Only root gives files away and becomes another user: owners and groups were not tried.");
    }
    user.is_root
}

/// A file of one user, shared with a group, is replaced by another user: nobody who was kept out is let in, and whoever shares it
/// by the group still does.
#[test]
fn owner_group_and_mode_of_a_file_that_another_user_replaces() {
    let user = Somebody::new();
    if !can_give(&user) {
        return;
    }
    const IN_THE_GROUP: &[u32] = &[SHARED];
    for (groups, before, after) in [
        (IN_THE_GROUP, 0o660, (ANOTHER, SHARED, 0o660)),
        (IN_THE_GROUP, 0o664, (ANOTHER, SHARED, 0o664)),
        // Outside of the group: it is another one now, and has no rights.
        (&[], 0o666, (ANOTHER, ANOTHER, 0o606)),
        (&[], 0o777, (ANOTHER, ANOTHER, 0o707)),
        // The people of the old group are among the others now, and may do no more than before.
        (&[], 0o646, (ANOTHER, ANOTHER, 0o604)),
        (&[], 0o606, (ANOTHER, ANOTHER, 0o600)),
    ] {
        replace_each(
            &user,
            |path| {
                give(path, OWNER, SHARED);
                set_mode(path, before);
            },
            |line| user.run_as(line, ANOTHER, groups),
            |path, line| assert_eq!(rights(path), after, "{} of {:o}", line, before),
        );
    }
}

#[test]
fn owner_group_and_mode_of_a_file_that_root_replaces() {
    let user = Somebody::new();
    if !can_give(&user) {
        return;
    }
    replace_each(
        &user,
        |path| {
            give(path, OWNER, SHARED);
            set_mode(path, 0o660);
        },
        |line| Some(crate::common::run(&user.folder, line)),
        |path, line| assert_eq!(rights(path), (OWNER, SHARED, 0o660), "{}", line),
    );
}
