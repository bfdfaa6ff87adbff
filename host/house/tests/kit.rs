//! What the gate leaves to rt, rt does, and it says so in the words that the gate and its tools read: on a real crate.

use std::env;
use std::fs;
use std::path::PathBuf;
use std::process::Command;

const SAME: &str = "// What it is given.\n\
    #![tactic(auto)]\n\
    \n\
    ghost use Rattle.std.specs.Prelude.{◌≡◌};\n\
    \n\
    pub fn same(number: u8) -> u8\n    \
        ensures { result ≡ number }\n\
    {\n    \
        number\n\
    }\n";

/// A repository of one crate.
struct Repository {
    folder: PathBuf,
}

impl Repository {
    fn new(name: &str) -> Repository {
        let label = format!("sprondilu-kit-{}-{}", name, std::process::id());
        let repository = Repository {
            folder: env::temp_dir().join(label),
        };
        let _ = fs::remove_dir_all(&repository.folder);
        repository.write("crates.txt", "handed:\n");
        repository.write("crates/handed/src/lib.rt", SAME);
        repository
    }

    fn write(&self, path: &str, text: &str) {
        let path = self.folder.join(path);
        fs::create_dir_all(path.parent().unwrap()).unwrap();
        fs::write(path, text).unwrap();
    }

    /// Whether rt's gate passes it, and all that it says.
    fn gate(&self) -> (bool, String) {
        let mut gate = Command::new("rt");
        let done = house::finish(gate.arg("ci").current_dir(&self.folder));
        let said = [done.stdout, done.stderr].concat();
        (done.status.success(), String::from_utf8(said).unwrap())
    }
}

impl Drop for Repository {
    fn drop(&mut self) {
        let _ = fs::remove_dir_all(&self.folder);
    }
}

#[test]
fn a_file_out_of_layout_is_refused() {
    let repository = Repository::new("layout");
    let flat = SAME.replace("    number\n", "  number\n");
    repository.write("crates/handed/src/lib.rt", &flat);
    let (passed, said) = repository.gate();
    assert!(!passed, "{}", said);
    assert!(said.contains("run rt fmt"), "{}", said);
    assert!(said.ends_with("0 passed, 1 failed\n"), "{}", said);
}

#[test]
fn a_file_that_no_check_reads_is_refused() {
    for file in ["target/agree/specs/Lone.antt", "docs/lone.rt"] {
        let repository = Repository::new("lone");
        repository.write(file, "");
        let (passed, said) = repository.gate();
        assert!(!passed, "{}", said);
        assert!(said.contains("no check reads"), "{}", said);
    }
}

#[test]
fn a_crate_is_told_of_and_a_bad_edit_is_counted() {
    let repository = Repository::new("told");
    let edit = |old: &str| format!("file: src/lib.rt\nold:     {}\nnew:     0\n", old);
    repository.write("crates/handed/must-fail/zero.edit", &edit("number"));
    repository.write("crates/handed/must-fail/stale.edit", &edit("letter"));
    let (passed, said) = repository.gate();
    assert!(passed, "{}", said);
    // An earlier run on this machine may have kept the crate.
    let proved = said.contains("== handed\n") && said.contains("\nrt: handed proved\n");
    let kept = said.contains("rt: handed is kept: an earlier run ");
    assert!(proved || kept, "{}", said);
    assert!(!proved || said.contains("\nlogic=proved "), "{}", said);
    for expected in [
        "\nrt: must-fail handed/stale.edit: BAD EDIT: ",
        "\nrt: must-fail handed/zero.edit: refused, as it must be",
        "\nrt: ok; handles allowed: none; must-fail edits: 1 refused, 1 bad; ",
    ] {
        assert!(said.contains(expected), "{}", said);
    }
    assert!(said.ends_with("\n2 passed, 0 failed\n"), "{}", said);

    let (_, again) = repository.gate();
    let kept = "rt: handed is kept: an earlier run ";
    assert!(again.contains(kept), "{}", again);
}
