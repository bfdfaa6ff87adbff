//! `tools/edits` tries the edits that it is asked for, and no others.
//!
//! Each test runs it in a repository of its own, where `rt` is a stand-in that says which edits stand where rt looks for them.

use std::env;
use std::fs;
use std::path::PathBuf;
use std::process::Command;

const SAYS: &str = "echo \"rt $*\"\necho crates/*/must-fail/*.edit crates/*/out\n";

/// A repository with the crates `low`, `high` above it, and `other`, of which the last has no such edit.
struct Tree {
    folder: PathBuf,
}

impl Tree {
    fn new(name: &str) -> Tree {
        let label = format!("sprondilu-edits-{}-{}", name, std::process::id());
        let tree = Tree {
            folder: env::temp_dir().join(label),
        };
        let _ = fs::remove_dir_all(&tree.folder);
        fs::create_dir_all(tree.folder.join("tools")).unwrap();
        house::copy_script("tools/edits", &tree.folder);
        tree.write("crates.txt", "low:\nhigh: low\nother:\n");
        tree.write(".gitignore", "target/\nbin/\nout/\n");
        for name in ["low", "high", "other"] {
            tree.write(&format!("crates/{}/src/lib.rt", name), "// nothing\n");
            tree.write(&format!("crates/{}/must-fail/gate.edit", name), "x\n");
            tree.write(&format!("crates/{}/out/kept", name), "x\n");
        }
        tree.write("crates/low/more-must-fail/first.edit", "x\n");
        tree.write("crates/high/more-must-fail/second.edit", "x\n");
        fs::create_dir_all(tree.folder.join("bin")).unwrap();
        house::write_script(&tree.folder.join("bin/rt"), SAYS);
        tree.git(&["init", "--quiet"]);
        tree.commit();
        tree
    }

    fn write(&self, path: &str, text: &str) {
        let path = self.folder.join(path);
        fs::create_dir_all(path.parent().unwrap()).unwrap();
        fs::write(path, text).unwrap();
    }

    fn git(&self, words: &[&str]) {
        let who = ["-c", "user.name=x", "-c", "user.email=x"];
        let mut git = Command::new("git");
        git.args(who).args(words).current_dir(&self.folder);
        let done = house::finish(&mut git);
        assert!(done.status.success(), "git {:?}: {:?}", words, done);
    }

    fn commit(&self) {
        self.git(&["add", "--all"]);
        self.git(&["commit", "--quiet", "--message", "x"]);
    }

    /// The exit status of `tools/edits` with these words, and all that it says.
    fn run(&self, words: &[&str]) -> (Option<i32>, String) {
        let path = env::var("PATH").unwrap();
        let path = format!("{}:{}", self.folder.join("bin").display(), path);
        let mut edits = Command::new(self.folder.join("tools/edits"));
        let done = house::finish(edits.args(words).env("PATH", path));
        let said = [done.stdout, done.stderr].concat();
        (done.status.code(), String::from_utf8(said).unwrap())
    }

    /// It tries just these edits, in a copy without what rt made of the crates.
    fn tries(&self, words: &[&str], edits: &[&str]) {
        let (status, said) = self.run(words);
        assert_eq!(status, Some(0), "{}", said);
        let crates = edits.iter().filter_map(|edit| edit.split('/').nth(1));
        let crates: Vec<&str> = crates.collect();
        let expected = format!(
            "rt must-fail {}\n{} crates/*/out\n",
            crates.join(" "),
            edits.join(" ")
        );
        assert!(said.ends_with(&expected), "{}", said);
    }
}

impl Drop for Tree {
    fn drop(&mut self) {
        let _ = fs::remove_dir_all(&self.folder);
    }
}

const FIRST: &str = "crates/low/must-fail/first.edit";
const SECOND: &str = "crates/high/must-fail/second.edit";

#[test]
fn all_or_those_of_the_named_crates_are_tried() {
    let tree = Tree::new("named");
    tree.tries(&[], &[SECOND, FIRST]);
    tree.tries(&["low"], &[FIRST]);
    tree.tries(&["high"], &[SECOND]);
    assert_eq!(tree.run(&["other"]).0, Some(2));
}

#[test]
fn those_of_the_crates_that_changed_since_a_commit_are_tried() {
    let tree = Tree::new("since");
    let (status, said) = tree.run(&["--since", "HEAD"]);
    assert_eq!(status, Some(0), "{}", said);
    assert!(
        said.contains("no crate that has such edits has changed"),
        "{}",
        said
    );

    // a change that is not committed, one that is, and a file that git does not know yet
    tree.write("crates/low/src/lib.rt", "// something\n");
    tree.write("crates/other/src/lib.rt", "// something\n");
    tree.tries(&["--since", "HEAD"], &[FIRST]);
    tree.commit();
    tree.tries(&["--since", "HEAD~1"], &[FIRST]);
    tree.write("crates/high/src/more.rt", "// something\n");
    tree.tries(&["--since", "HEAD"], &[SECOND]);
    tree.tries(&["--since", "HEAD~1"], &[SECOND, FIRST]);

    // a file that goes from one crate to another
    tree.commit();
    tree.git(&["mv", "crates/high/src/more.rt", "crates/other/src/more.rt"]);
    tree.tries(&["--since", "HEAD"], &[SECOND]);
}

#[test]
fn no_commit_or_none_of_that_name_is_said() {
    let tree = Tree::new("no-commit");
    for words in [&["--since"][..], &["--since", "nothing"]] {
        let (status, said) = tree.run(words);
        assert_eq!(status, Some(2), "{}", said);
        assert!(said.contains("commit"), "{}", said);
    }
}
