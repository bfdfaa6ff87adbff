//! What the gate says of assumptions fires on a real crate: one that leans on a contract of the C library, which the kit
//! declares and nothing proves.

use std::env;
use std::fs;
use std::path::PathBuf;
use std::process::Command;
use std::sync::atomic::{AtomicUsize, Ordering};

/// It promises what the contract of C's fsync says, and checks without a word about that.
const LEANS: &str = "// What C says of fsync.\n\
    #![tactic(auto)]\n\
    \n\
    ghost use Rattle.libc.specs.Io.{Status};\n\
    \n\
    #[unsafe(no_mangle)]\n\
    pub extern \"C\" fn outside_sync(file: i32) -> i32\n    \
        ensures { Status result }\n\
    {\n    \
        libc::fsync(file)\n\
    }\n";

/// A repository of one such crate, with the project's own look at assumptions.
struct Outside {
    folder: PathBuf,
}

impl Outside {
    fn new() -> Outside {
        static MADE: AtomicUsize = AtomicUsize::new(0);
        let turn = MADE.fetch_add(1, Ordering::Relaxed);
        let folder =
            env::temp_dir().join(format!("sprondilu-outside-{}-{}", std::process::id(), turn));
        let _ = fs::remove_dir_all(&folder);
        for sub in ["tools", "crates/outside/src", "target/said"] {
            fs::create_dir_all(folder.join(sub)).unwrap();
        }
        for tool in ["tools/assumptions", "tools/library"] {
            house::copy_script(tool, &folder);
        }
        fs::write(folder.join("crates/outside/src/lib.rt"), LEANS).unwrap();
        let outside = Outside { folder };
        outside.list("outside: libc\n");
        outside
    }

    fn list(&self, crates: &str) {
        fs::write(self.folder.join("crates.txt"), crates).unwrap();
    }

    /// Whether a command in a folder of that repository ends well, and all that it says.
    fn run(&self, folder: &str, program: &str, words: &[&str]) -> (bool, String) {
        let mut command = Command::new(program);
        command.args(words).current_dir(self.folder.join(folder));
        let done = house::finish(&mut command);
        let said = [done.stdout, done.stderr].concat();
        let said = String::from_utf8(said).unwrap();
        (done.status.success(), said)
    }

    fn tool(&self, name: &str, words: &[&str]) -> (bool, String) {
        let tool = self.folder.join(name);
        self.run("", tool.to_str().unwrap(), words)
    }

    /// The check of the crate, which stands where the gate keeps what rt said.
    fn check(&self) -> String {
        let (proved, said) = self.run("crates/outside", "rt", &["check"]);
        assert!(proved, "{}", said);
        let told = format!("== outside\n{}rt: outside proved\n", said);
        fs::write(self.folder.join("target/said/ci"), told).unwrap();
        said
    }
}

impl Drop for Outside {
    fn drop(&mut self) {
        let _ = fs::remove_dir_all(&self.folder);
    }
}

#[test]
fn a_contract_of_the_kit_is_seen_when_its_library_is_built() {
    let outside = Outside::new();
    let said = outside.check();
    assert!(!said.contains("axioms="), "{}", said);
    let (passed, said) = outside.tool("tools/assumptions", &[]);
    assert!(!passed, "{}", said);
    assert!(said.contains("outside stands on libc"), "{}", said);
    // So that what is seen from here on is not the list.
    let told = fs::read_to_string(outside.folder.join("target/said/ci")).unwrap();
    let told = told + "rt: libc is kept: an earlier run on this machine proved it\n";
    fs::write(outside.folder.join("target/said/ci"), told).unwrap();
    outside.list("outside: libc\nlibc:\n");
    let (passed, said) = outside.tool("tools/assumptions", &[]);
    assert!(passed, "{}", said);

    outside.list("outside staticlib: libc\n");
    let (built, said) = outside.tool("tools/library", &["outside"]);
    assert!(built, "{}", said);
    outside.list("outside staticlib: libc\nlibc:\n");
    let (passed, said) = outside.tool("tools/assumptions", &["outside"]);
    assert!(!passed, "{}", said);
    assert!(said.contains("axioms=1"), "{}", said);
}

/// The check of a static library says the same as its build.
#[test]
fn a_contract_of_the_kit_is_seen_when_a_static_library_is_checked() {
    let outside = Outside::new();
    outside.list("outside staticlib: libc\n");
    let said = outside.check();
    assert!(said.contains("axioms=1"), "{}", said);
    assert!(said.contains("\naxioms libc: libc::fsync ("), "{}", said);
}

/// rt's own gate takes no crate that stands on these.
#[test]
fn a_crate_that_stands_on_libc_is_refused_by_rt_ci() {
    let outside = Outside::new();
    let (passed, said) = outside.run("", "rt", &["ci"]);
    assert!(!passed, "{}", said);
    assert!(said.contains("crates.txt lists libc or os"), "{}", said);
}
