//! The README's first command, `./demo`, from nothing: what it builds, when it builds anew, and what it says if that fails.
//!
//! As in the tests of the gate, `rt` and `cargo` are stand-ins in a folder of the test's own. What the demo plays is tested
//! with the host program.

mod terminal;

use std::ffi::OsString;
use std::fs;
use std::path::{Path, PathBuf};
use std::process::{Command, Output};
use std::time::{Duration, SystemTime};
use std::{env, process};

/// A clone with nothing built in it.
struct Clone {
    folder: PathBuf,
}

/// Writes the library, and remembers that it was asked to.
const PROVES: &str = "echo \"$*\" >>../../proved\nmkdir -p out\necho archive >out/libsprondilu.a\n";

/// Writes a program that says its own arguments, if the library is where it is looked for.
const BUILDS: &str = "grep -q archive \"$SPRONDILU_LIB/libsprondilu.a\" || exit 101\n\
    mkdir -p \"$CARGO_TARGET_DIR/release\"\n\
    printf '#!/bin/sh\\necho \"played: $*\"\\n' >\"$CARGO_TARGET_DIR/release/sprondilu\"\n\
    chmod +x \"$CARGO_TARGET_DIR/release/sprondilu\"\n";

/// Of the four crates the library reaches three.
const CRATES: &str =
    "wire:\nrows: wire # and a note\nhistory: wire\nsprondilu staticlib: wire rows\n";

/// Proves these as rt does. The first and the last take so long that they are seen.
const PROVES_CRATES: &str = "for name in NAMES; do\n\
    echo \"rt: chose --jobs 2 for $name\"\n\
    [ \"$name\" = rows ] || sleep TIME\n\
    echo \"fn $name::read: proved\"\n\
    echo 'logic=proved functions=1 sum=0'\n\
    done\n\
    mkdir -p out\n\
    echo archive >out/libsprondilu.a\n";

/// Says of what it compiles the same as cargo.
const COMPILES: &str = "echo '   Compiling sprondilu v0.1.0 (/somewhere/host/sprondilu)' >&2\n";

impl Clone {
    fn new(name: &str) -> Clone {
        let folder = env::temp_dir().join(format!("sprondilu-demo-{}-{}", name, process::id()));
        let _ = fs::remove_dir_all(&folder);
        for sub in ["bin", "tools", "crates/sprondilu", "host"] {
            fs::create_dir_all(folder.join(sub)).unwrap();
        }
        for file in ["demo", "tools/library", "tools/progress"] {
            house::copy_script(file, &folder);
        }
        fs::write(folder.join("crates.txt"), "wire:\n").unwrap();
        fs::write(folder.join("crates/lib.rt"), "").unwrap();
        let clone = Clone { folder };
        clone.script("tools/install", "exit 0\n");
        clone.script("bin/rt", PROVES);
        clone.script("bin/cargo", BUILDS);
        clone.script("bin/uname", "echo x86_64\n");
        clone
    }

    fn script(&self, path: &str, body: &str) {
        house::write_script(&self.folder.join(path), body);
    }

    /// One whose library stands on crates, and which takes this time to prove one.
    fn of_crates(name: &str, time: &str) -> Clone {
        let clone = Clone::new(name);
        fs::write(clone.folder.join("crates.txt"), CRATES).unwrap();
        clone.proves("wire rows sprondilu", time);
        clone.script("bin/cargo", &format!("{}{}", COMPILES, BUILDS));
        clone
    }

    /// Has rt prove these crates, each in this time.
    fn proves(&self, names: &str, time: &str) {
        let proves = PROVES_CRATES.replace("NAMES", names);
        self.script("bin/rt", &proves.replace("TIME", time));
    }

    fn path(&self) -> OsString {
        let path = env::var("PATH").expect("a PATH");
        format!("{}:{}", self.folder.join("bin").display(), path).into()
    }

    /// Runs the command from another folder, as a user may.
    fn run(&self, words: &[&str]) -> Output {
        let mut demo = Command::new(self.folder.join("demo"));
        demo.args(words)
            .env("PATH", self.path())
            .current_dir(env::temp_dir());
        house::finish(&mut demo)
    }

    /// What the command wrote to a terminal.
    fn on_a_terminal(&self) -> String {
        self.on_a_terminal_with("")
    }

    /// The same with a word before it, for its environment.
    fn on_a_terminal_with(&self, word: &str) -> String {
        let demo = format!("{} '{}'", word, self.folder.join("demo").display());
        let done = terminal::run(&demo, &self.path());
        String::from_utf8_lossy(&done.stdout).into_owned()
    }

    fn plays(&self, words: &[&str]) {
        let done = self.run(words);
        let said = String::from_utf8_lossy(&done.stderr);
        assert!(done.status.success(), "{}", said);
        let played = format!("played: demo {}", words.join(" "));
        assert_eq!(
            String::from_utf8_lossy(&done.stdout).trim_end(),
            played.trim_end()
        );
    }

    /// How often the library was proved.
    fn proved(&self) -> usize {
        let lines = fs::read_to_string(self.folder.join("proved")).unwrap_or_default();
        let asked = "lib --target x86_64-unknown-linux-gnu --cpu x86-64";
        assert!(lines.lines().all(|line| line == asked), "{}", lines);
        lines.lines().count()
    }
}

impl Drop for Clone {
    fn drop(&mut self) {
        let _ = fs::remove_dir_all(&self.folder);
    }
}

/// Makes a file so much younger than now that no clock is too coarse for it.
fn touch(path: &Path) {
    let later = SystemTime::now() + Duration::from_secs(60);
    let since = later.duration_since(SystemTime::UNIX_EPOCH).unwrap();
    let stamp = format!("@{}", since.as_secs());
    let done = house::finish(Command::new("touch").arg("-d").arg(stamp).arg(path));
    assert!(done.status.success());
}

#[test]
fn one_command_proves_builds_and_plays() {
    let clone = Clone::new("first");
    clone.plays(&[]);
    assert_eq!(clone.proved(), 1);
    clone.plays(&["--keep", "somewhere"]);
    assert_eq!(clone.proved(), 1, "nothing had changed");
}

#[test]
fn a_changed_source_is_proved_anew() {
    for source in ["crates/lib.rt", "crates.txt"] {
        let clone = Clone::new("changed");
        clone.plays(&[]);
        touch(&clone.folder.join(source));
        clone.plays(&[]);
        assert_eq!(clone.proved(), 2, "{}", source);
    }
}

#[test]
fn what_rt_makes_is_no_source_and_a_source_that_is_gone_was_one() {
    let clone = Clone::new("made");
    fs::create_dir_all(clone.folder.join("crates/wire/src")).unwrap();
    clone.plays(&[]);
    for made in [
        "crates/sprondilu",
        "crates/sprondilu/out",
        "crates/sprondilu/out/libsprondilu.a",
    ] {
        touch(&clone.folder.join(made));
        clone.plays(&[]);
        assert_eq!(clone.proved(), 1, "{}", made);
    }
    touch(&clone.folder.join("crates/wire/src"));
    clone.plays(&[]);
    assert_eq!(clone.proved(), 2);
}

#[test]
fn what_cannot_be_proved_or_built_is_said_and_not_played() {
    let fails = "echo 'what went wrong'\nexit 1\n";
    for (tool, step) in [
        ("bin/rt", "tools/library sprondilu"),
        ("bin/cargo", "cargo build"),
    ] {
        let clone = Clone::new("fails");
        clone.plays(&[]);
        touch(&clone.folder.join("crates/lib.rt"));
        clone.script(tool, fails);
        let done = clone.run(&[]);
        let said = String::from_utf8_lossy(&done.stderr);
        assert!(!done.status.success(), "{}", said);
        assert!(done.stdout.is_empty(), "{}", said);
        assert!(said.contains("what went wrong"), "{}", said);
        assert!(
            said.contains(&format!("demo: this failed: {}", step)),
            "{}",
            said
        );
    }
}

#[test]
fn a_machine_that_lacks_something_is_told_so() {
    let clone = Clone::new("lacks");
    clone.script(
        "tools/install",
        "echo 'install: there is no kit' >&2\nexit 1\n",
    );
    let done = clone.run(&[]);
    assert!(!done.status.success());
    assert!(String::from_utf8_lossy(&done.stderr).contains("there is no kit"));
}

/// A line without its time, which no test foretells.
fn untimed(line: &str) -> &str {
    let words = line.trim_end_matches(" s");
    words.trim_end_matches(|c: char| c.is_ascii_digit())
}

#[test]
fn elsewhere_than_on_a_terminal_there_is_a_line_for_each_crate() {
    let clone = Clone::of_crates("lines", "0");
    let done = clone.run(&[]);
    assert_eq!(String::from_utf8_lossy(&done.stdout), "played: demo\n");
    let said = String::from_utf8(done.stderr).unwrap();
    assert!(!said.contains(&['\r', '\u{1b}'][..]), "{}", said);
    assert!(said.lines().all(|line| line.len() < 80), "{}", said);
    let lines: Vec<&str> = said.lines().collect();
    assert_eq!(lines.len(), 8, "{}", said);
    assert_eq!(
        lines[0],
        "demo: proving the library and building it; from nothing this takes some minutes"
    );
    for (line, expected) in lines[1..4].iter().zip([
        "demo: wire proved, 1 of 3 crates, ",
        "demo: rows proved, 2 of 3 crates, ",
        "demo: sprondilu proved, 3 of 3 crates, ",
    ]) {
        assert_eq!(untimed(line), expected);
    }
    let took = lines[4].strip_prefix("demo: proving the library and building it took ");
    assert!(took.unwrap().ends_with(" s, 3 crates"), "{}", said);
    assert_eq!(lines[5], "demo: building the host program");
    assert_eq!(untimed(lines[6]), "demo: compiling sprondilu, ");
    assert_eq!(untimed(lines[7]), "demo: building the host program took ");
}

/// Of crates that were built before, rt says nothing.
#[test]
fn a_crate_that_was_built_before_is_counted() {
    let clone = Clone::of_crates("kept", "0");
    clone.proves("rows sprondilu", "0");
    let said = String::from_utf8(clone.run(&[]).stderr).unwrap();
    let lines: Vec<&str> = said.lines().collect();
    for (line, expected) in lines[1..4].iter().zip([
        "demo: wire kept, 1 of 3 crates, ",
        "demo: rows proved, 2 of 3 crates, ",
        "demo: sprondilu proved, 3 of 3 crates, ",
    ]) {
        assert_eq!(untimed(line), expected);
    }
    assert!(lines[4].ends_with(" s, 3 crates"), "{}", said);
}

#[test]
fn on_a_terminal_one_line_changes_and_one_stays() {
    let clone = Clone::of_crates("terminal", "2.4");
    let written = clone.on_a_terminal();
    for expected in [
        "\rdemo: proving the library and building it; ",
        "\rdemo: proving wire, 0 of 3 crates done, ",
        "\rdemo: proving sprondilu, 2 of 3 crates done, ",
    ] {
        assert!(written.contains(expected), "{:?}", written);
    }
    let stands = terminal::standing(&written);
    let untimed: Vec<&str> = stands.iter().map(|line| untimed(line)).collect();
    assert_eq!(untimed.len(), 3, "{:?}", written);
    assert!(untimed[0].starts_with("demo: proving the library and building it took "));
    assert!(untimed[0].ends_with(" s, 3 crates"), "{:?}", written);
    assert_eq!(untimed[1], "demo: building the host program took ");
    assert_eq!(untimed[2], "played: demo");
}

/// A line that wraps could not be written over.
#[test]
fn on_a_narrow_terminal_a_line_is_cut() {
    let written = Clone::of_crates("narrow", "0").on_a_terminal_with("COLUMNS=40");
    let texts = written.split(&['\r', '\n'][..]);
    let texts: Vec<&str> = texts
        .map(|text| text.trim_end_matches("\u{1b}[K"))
        .collect();
    assert!(texts.iter().all(|text| text.len() < 40), "{:?}", written);
    let cut = |text: &&str| text.contains(".. took ") && text.ends_with(" s, 3 crates");
    assert!(texts.iter().any(cut), "{:?}", written);
}

#[test]
fn a_terminal_that_writes_over_nothing_gets_lines() {
    let written = Clone::of_crates("dumb", "0").on_a_terminal_with("TERM=dumb");
    assert!(!written.contains('\u{1b}'), "{:?}", written);
    assert!(
        written.contains("demo: rows proved, 2 of 3 crates, "),
        "{:?}",
        written
    );
}

#[test]
fn of_what_is_built_already_nothing_is_said() {
    let clone = Clone::new("built");
    clone.plays(&[]);
    let done = clone.run(&[]);
    assert_eq!(String::from_utf8_lossy(&done.stderr), "");
    assert_eq!(terminal::standing(&clone.on_a_terminal()), ["played: demo"]);
}

#[test]
fn a_failure_on_a_terminal_is_said_whole() {
    let clone = Clone::new("fails-there");
    clone.script(
        "bin/rt",
        "echo 'what went wrong'\necho 'and where' >&2\nexit 1\n",
    );
    assert_eq!(
        terminal::standing(&clone.on_a_terminal()),
        [
            "what went wrong",
            "and where",
            "demo: this failed: tools/library sprondilu"
        ]
    );
}

/// rt proves in the background of a shell, where an interrupt does not reach it.
#[test]
fn ctrl_c_ends_all_that_was_started() {
    let clone = Clone::new("ctrl-c");
    clone.script(
        "bin/rt",
        "sleep 1000 >/dev/null 2>&1 &\necho $! >../../started\nwait\n",
    );
    let started = clone.folder.join("started");
    let command = format!(
        "'{}'; echo \"ended: $?\"; sleep 1; grep -qs sleep \"/proc/$(cat '{}')/cmdline\" || echo nothing is left",
        clone.folder.join("demo").display(),
        started.display()
    );
    let done = terminal::run_until(&started, &command, &clone.path());
    let written = String::from_utf8_lossy(&done.stdout);
    let stands = terminal::standing(&written);
    assert_eq!(stands, ["ended: 130", "nothing is left"], "{:?}", written);
}
