//! The gate's word can be trusted: its last line reads '0 failed' only after every step went well.
//!
//! Each test runs the project's own `.ci/run` and `test` in a folder of its own, where `rt` and `cargo` are stand-ins that end as
//! the test wants, and looks at the exit status and the very last line.

mod terminal;

use std::env;
use std::ffi::OsString;
use std::fs;
use std::os::unix::fs::symlink;
use std::path::{Path, PathBuf};
use std::process::Command;

/// As rt does, of each crate in crates.txt.
const WELL: &str = "sed -n 's/^\\([a-z]*\\).*:.*/\\1/p' crates.txt | while read -r name; do\n\
    echo \"== $name\"\n\
    echo 'logic=proved functions=16 sum=0'\n\
    echo \"rt: $name proved\"\n\
    done\n\
    echo 'proved: all'\n\
    echo 'rt: ok; handles allowed: none; must-fail edits: 2 refused; every proof and must-fail edit was done in this run'\n\
    echo '7 passed, 0 failed'\n";

/// Writes the library of the crate in whose folder it runs.
const BUILT: &str = "name=${PWD##*/}\n\
    mkdir -p out\n\
    echo archive > \"out/lib$name.a\"\n\
    echo 'axioms libc: none reached of the 128 declared'\n\
    echo 'logic=proved functions=1 sum=0'\n";

/// Passes if it finds the libraries where the gate says that they are.
const LINKED: &str = "for name in sprondilu trial; do\n\
    grep -q archive \"$SPRONDILU_LIB/lib$name.a\" || exit 101\n\
    done\n\
    echo 'test result: ok. 3 passed; 0 failed'\n";

/// A copy of the gate with stand-ins for what it calls.
struct Gate {
    folder: PathBuf,
}

impl Gate {
    fn new(name: &str) -> Gate {
        let folder =
            env::temp_dir().join(format!("sprondilu-gate-{}-{}", name, std::process::id()));
        let _ = fs::remove_dir_all(&folder);
        let folders = [".ci", "tools", "bin", "host"];
        for sub in folders
            .into_iter()
            .chain(["crates/sprondilu", "crates/trial"])
        {
            fs::create_dir_all(folder.join(sub)).unwrap();
        }
        for file in [
            ".ci/run",
            "test",
            "tools/assumptions",
            "tools/install",
            "tools/library",
            "tools/progress",
        ] {
            house::copy_script(file, &folder);
        }
        let gate = Gate { folder };
        gate.crates("wire:\n");
        // Nothing of this machine is on the gate's PATH but these, so that a tool can be missing there.
        for tool in [
            "bash", "cat", "cp", "dirname", "env", "grep", "mkdir", "mktemp", "rm", "sed", "sleep",
            "stty", "tail", "tee",
        ] {
            symlink(which(tool), gate.folder.join("bin").join(tool)).unwrap();
        }
        gate.rt(WELL);
        gate.tool("cargo", LINKED);
        gate.tool("cc", "exit 0\n");
        gate.tool("uname", "echo x86_64\n");
        gate.agree("exit 0\n");
        gate.demo("exit 0\n");
        gate
    }

    fn tool(&self, name: &str, body: &str) {
        house::write_script(&self.folder.join("bin").join(name), body);
    }

    fn agree(&self, body: &str) {
        house::write_script(&self.folder.join("tools/agree"), body);
    }

    fn crates(&self, list: &str) {
        fs::write(self.folder.join("crates.txt"), list).unwrap();
    }

    fn demo(&self, body: &str) {
        house::write_script(&self.folder.join("demo"), body);
    }

    fn rt(&self, ci: &str) {
        self.rt_with_library(ci, BUILT);
    }

    fn rt_with_library(&self, ci: &str, library: &str) {
        let commands = [("ci", ci), ("lib", library)];
        let of_command = |(word, body): &(&str, &str)| format!("{})\n{}\n;;\n", word, body);
        let cases: String = commands.iter().map(of_command).collect();
        self.tool(
            "rt",
            &format!("case \"$1\" in\n{}*) exit 2 ;;\nesac\n", cases),
        );
    }

    fn without(&self, name: &str) {
        fs::remove_file(self.folder.join("bin").join(name)).unwrap();
    }

    /// Whether the gate passed, its very last line, and all that it printed.
    fn run(&self) -> (bool, String, String) {
        let mut gate = Command::new(self.folder.join("bin/bash"));
        gate.arg(self.folder.join(".ci/run"))
            .env("PATH", self.folder.join("bin"))
            // A library that whoever runs the gate works with is not the one to be tested.
            .env("SPRONDILU_LIB", env::temp_dir())
            .current_dir(env::temp_dir());
        let done = house::finish(&mut gate);
        let printed = String::from_utf8(done.stdout).unwrap();
        let said = String::from_utf8(done.stderr).unwrap();
        let last = printed.lines().last().unwrap_or("").to_string();
        (done.status.success(), last, printed + &said)
    }

    fn command(&self) -> String {
        let folder = self.folder.display();
        format!("'{folder}/bin/bash' '{folder}/.ci/run'")
    }

    fn path(&self) -> OsString {
        self.folder.join("bin").into()
    }

    /// Whether the gate passed on a terminal, and what it wrote there.
    fn on_a_terminal(&self) -> (bool, String) {
        let done = terminal::run(&self.command(), &self.path());
        (
            done.status.success(),
            String::from_utf8(done.stdout).unwrap(),
        )
    }

    /// The gate is red, and names the step at which it stopped.
    fn is_red_at(&self, step: &str) {
        let (passed, last, all) = self.run();
        assert!(!passed, "{}", all);
        assert!(!last.contains("0 failed"), "{}", all);
        assert!(last.contains(step), "{}", all);
    }
}

impl Drop for Gate {
    fn drop(&mut self) {
        let _ = fs::remove_dir_all(&self.folder);
    }
}

fn which(tool: &str) -> PathBuf {
    let path = env::var_os("PATH").expect("a PATH");
    env::split_paths(&path)
        .map(|folder| folder.join(tool))
        .find(|file| Path::new(file).is_file())
        .unwrap_or_else(|| panic!("no {} on the PATH", tool))
}

#[test]
fn all_well_ends_with_the_verdict_of_rt() {
    let (passed, last, all) = Gate::new("well").run();
    assert!(passed, "{}", all);
    assert_eq!(last, "7 passed, 0 failed");
    assert_eq!(all.matches("7 passed, 0 failed").count(), 1, "{}", all);
    assert!(all.contains("proved: all"), "{}", all);
}

#[test]
fn definitions_that_disagree_with_the_second_program_are_red() {
    let gate = Gate::new("disagree");
    gate.agree("echo 'rt: FAILED: agree'\nexit 1\n");
    gate.is_red_at("tools/agree");
}

#[test]
fn a_demo_that_does_not_play_is_red() {
    let gate = Gate::new("demo");
    gate.demo("echo '7 passed, 0 failed'\nexit 2\n");
    gate.is_red_at("./demo");
}

#[test]
fn an_unproved_crate_is_red() {
    let gate = Gate::new("unproved");
    gate.rt("echo '6 passed, 1 failed'\nexit 1\n");
    gate.is_red_at("rt ci");
}

#[test]
fn a_failed_rt_is_red_whatever_it_printed() {
    let gate = Gate::new("status");
    gate.rt("echo '7 passed, 0 failed'\nexit 3\n");
    gate.is_red_at("rt ci");
}

#[test]
fn an_rt_that_broke_off_is_red() {
    let gate = Gate::new("broke-off");
    gate.rt("echo '7 passed, 0 failed'\necho 'rt: no disk'\nexit 0\n");
    gate.is_red_at("rt ci");
    gate.rt("exit 0\n");
    gate.is_red_at("rt ci");
}

#[test]
fn an_rt_that_proved_nothing_is_red() {
    let gate = Gate::new("nothing");
    gate.rt("echo '0 passed, 0 failed'\n");
    gate.is_red_at("rt ci");
}

#[test]
fn a_proof_that_assumes_something_is_red() {
    let gate = Gate::new("assumes");
    for word in ["axioms=1", "foreign=wire::write axioms=1"] {
        gate.rt(&WELL.replace("sum=0", word));
        gate.is_red_at("assumptions");
    }
}

/// The check of a crate says nothing of contracts that a crate of the kit brings; the library over it does.
#[test]
fn a_library_that_reaches_what_is_assumed_is_red() {
    let gate = Gate::new("reaches");
    for said in [
        "logic=proved functions=1 axioms=1",
        "logic=proved functions=1 foreign=wire::write axioms=1",
        "axioms libc: libc::fsync (1 of the 128 declared)",
    ] {
        for name in ["sprondilu", "trial"] {
            let report = format!(
                "{}[ \"$name\" != {} ] || echo '{}'\necho 'logic=proved functions=1 sum=0'\n",
                BUILT, name, said
            );
            gate.rt_with_library(WELL, &report);
            gate.is_red_at("tools/assumptions after the libraries");
        }
    }
}

#[test]
fn a_library_of_which_rt_said_nothing_is_red() {
    let gate = Gate::new("silent");
    for name in ["sprondilu", "trial"] {
        let report = format!("{}[ \"$name\" != {} ] || echo 'rt: done'\n", BUILT, name);
        gate.rt_with_library(WELL, &report);
        gate.is_red_at("tools/assumptions after the libraries");
    }
}

#[test]
fn a_crate_that_stands_on_one_of_the_kit_is_red() {
    let gate = Gate::new("kit-crate");
    gate.crates("# as rt reads it: a note\nwire:\nrows staticlib: wire # another\n");
    assert!(gate.run().0);
    for other in ["libc", "io", "os", "wire libc", "check"] {
        gate.crates(&format!("wire:\nrows: {}\n", other));
        gate.is_red_at("tools/assumptions after the checks");
    }
}

/// The line with which rt ends well.
const OK: &str = "echo 'rt: ok; handles allowed: none; must-fail edits: 2 refused'\n\
    echo '7 passed, 0 failed'\n";

#[test]
fn a_check_of_which_rt_said_nothing_is_red() {
    let gate = Gate::new("log");
    gate.rt(OK);
    gate.is_red_at("assumptions");
    // of another crate alone, or of none of this name
    gate.crates("wire:\nrows: wire\n");
    for name in ["wire", "rows_of"] {
        gate.rt(&format!(
            "echo '== {0}'\necho 'logic=proved functions=16 sum=0'\necho 'rt: {0} proved'\n{1}",
            name, OK
        ));
        gate.is_red_at("assumptions");
    }
}

#[test]
fn a_crate_that_an_earlier_run_proved_is_well() {
    let gate = Gate::new("kept");
    gate.crates("wire:\nrows: wire\n");
    let kept = "echo 'rt: rows is kept: an earlier run on this machine proved the same files over the same libraries'\n";
    let proved = "echo '== wire'\necho 'logic=proved functions=16 sum=0'\necho 'rt: wire proved'\n";
    gate.rt(&format!("{}{}{}", proved, kept, OK));
    let (passed, last, all) = gate.run();
    assert!(passed, "{}", all);
    assert_eq!(last, "7 passed, 0 failed");
    gate.rt(&format!("{}{}", kept, OK));
    gate.is_red_at("assumptions");
}

#[test]
fn an_edit_that_was_not_tried_is_red() {
    let gate = Gate::new("bad-edit");
    let said = |edits: &str| WELL.replace("must-fail edits: 2 refused", edits);
    for edits in [
        "must-fail edits: 2 refused, 1 bad",
        "must-fail edits: 2 refused, 1 of them only by a limit, 12 bad",
        "must-fail edits: 0 refused, 3 bad",
        "must-fail edits: 0 refused",
    ] {
        gate.rt(&said(edits));
        gate.is_red_at("rt ci, must-fail edits that were not tried");
    }
    gate.rt(&WELL.replace("rt: ok;", "rt: well;"));
    gate.is_red_at("rt ci, must-fail edits that were not tried");
    gate.rt(&said(
        "must-fail edits: 10 refused, 1 of them only by a limit",
    ));
    assert!(gate.run().0);
}

#[test]
fn a_library_that_cannot_be_built_is_red() {
    let gate = Gate::new("library");
    for library in ["exit 1", "echo '7 passed, 0 failed'\nexit 3"] {
        gate.rt_with_library(WELL, library);
        gate.is_red_at("tools/library sprondilu");
    }
    let all_but_trial = format!("[ \"${{PWD##*/}}\" != trial ] || exit 1\n{}", BUILT);
    gate.rt_with_library(WELL, &all_but_trial);
    gate.is_red_at("tools/library trial");
}

#[test]
fn the_library_is_compiled_for_the_machine() {
    let gate = Gate::new("machine");
    for (machine, words) in [
        (
            "x86_64",
            "lib --target x86_64-unknown-linux-gnu --cpu x86-64",
        ),
        ("aarch64", "lib --target aarch64-unknown-linux-gnu"),
    ] {
        gate.tool("uname", &format!("echo {}\n", machine));
        let asked = format!("[ \"$*\" = '{}' ] || exit 1\n{}", words, BUILT);
        gate.rt_with_library(WELL, &asked);
        let (passed, last, all) = gate.run();
        assert!(passed, "{}", all);
        assert_eq!(last, "7 passed, 0 failed", "{}", all);
    }
    gate.tool("uname", "echo riscv64\n");
    gate.rt(WELL);
    gate.is_red_at("tools/library sprondilu");
    assert!(gate.run().2.contains("rt compiles for no riscv64"));
}

#[test]
fn a_library_that_was_not_written_or_is_another_is_red() {
    let all_but = |name| {
        format!(
            "[ \"${{PWD##*/}}\" != {} ] || {{ echo 'logic=proved functions=1'; exit 0; }}\n{}",
            name, BUILT
        )
    };
    for (library, step) in [
        ("exit 0".to_string(), "tools/library sprondilu"),
        (
            "mkdir -p out\necho archive > out/libwire.a".to_string(),
            "tools/library sprondilu",
        ),
        (all_but("trial"), "tools/library trial"),
        (all_but("sprondilu"), "tools/library sprondilu"),
    ] {
        let gate = Gate::new("no-library");
        gate.rt_with_library(WELL, &library);
        gate.is_red_at(step);
        // nor is what an earlier run left taken for it
        for name in ["sprondilu", "trial"] {
            let folder = gate.folder.join(format!("crates/{}/out", name));
            fs::create_dir_all(&folder).unwrap();
            fs::write(folder.join(format!("lib{}.a", name)), "archive").unwrap();
        }
        gate.is_red_at(step);
    }
}

#[test]
fn no_library_is_built_of_what_assumes_something() {
    let gate = Gate::new("assumed-library");
    gate.rt_with_library(&WELL.replace("sum=0", "axioms=1"), "echo built\n");
    gate.is_red_at("assumptions");
    assert!(!gate.run().2.contains("built"));
}

#[test]
fn a_failed_host_test_is_red_after_all_is_proved() {
    let gate = Gate::new("host");
    gate.tool(
        "cargo",
        "echo 'test result: FAILED. 2 passed; 1 failed'\nexit 101\n",
    );
    gate.is_red_at("cargo test");
    gate.tool("cargo", "echo '9 passed, 0 failed'\nexit 1\n");
    gate.is_red_at("cargo test");
}

#[test]
fn a_machine_without_the_kit_is_told_so() {
    let gate = Gate::new("kit");
    gate.without("rt");
    gate.is_red_at("tools/install");
    assert!(gate.run().2.contains("Rattle's kit"));
}

#[test]
fn what_is_missing_is_installed_by_name() {
    let gate = Gate::new("install");
    gate.without("cargo");
    gate.is_red_at("tools/install");
    assert!(gate.run().2.contains("install these by hand: cargo"));
    let cargo = gate.folder.join("bin/cargo");
    let installs = format!(
        "if [ \"$1\" = install ]; then\n\
         for word in \"$@\"; do\n\
         if [ \"$word\" = cargo ]; then\n\
         {ln} -s {yes} {cargo}\n\
         fi\ndone\nfi\n",
        ln = which("ln").display(),
        yes = which("true").display(),
        cargo = cargo.display()
    );
    gate.tool("apt-get", &installs);
    let (passed, last, all) = gate.run();
    assert!(passed, "{}", all);
    assert_eq!(last, "7 passed, 0 failed");
    gate.without("cargo");
    gate.tool("apt-get", "exit 100\n");
    gate.is_red_at("tools/install");
}

/// The steps as the gate names them.
const STEPS: [&str; 9] = [
    "tools/install, what this machine lacks",
    "rt ci, every proof and every must-fail edit",
    "tools/assumptions after the checks: no proof leans on what nothing proves",
    "tools/library sprondilu, the library that the host tests link",
    "tools/library trial, the changes of a table for the host tests alone",
    "tools/assumptions after the libraries: no function in them leans on what nothing proves",
    "cargo test, the host tests",
    "tools/agree, the definitions against the second program",
    "./demo, the README's first command",
];

/// What stands before the first comma or colon of a step is its name.
fn name_of(step: &str) -> &str {
    step.split(&[',', ':'][..]).next().unwrap()
}

/// Three crates and three edits, of which one stands where rt does not look. Those that are begun take this time.
fn with_crates_and_edits(gate: &Gate, time: &str) {
    gate.rt(&CHECKS.replace("TIME", time));
    gate.crates("wire:\nrows: wire # and a note\ntrial: wire\n");
    for edit in [
        "wire/must-fail/one",
        "rows/must-fail/two",
        "rows/more-must-fail/three",
    ] {
        let file = gate.folder.join(format!("crates/{}.edit", edit));
        fs::create_dir_all(file.parent().unwrap()).unwrap();
        fs::write(file, "").unwrap();
    }
}

/// As rt does with these, with the folders that it makes. It tells of the edits in the end.
const CHECKS: &str = "rm -rf crates/*/out\n\
    mkdir -p crates/wire/out\n\
    sleep TIME\n\
    for name in wire rows; do\n\
    echo \"== $name\"\n\
    echo \"fn $name::read: proved\"\n\
    echo 'logic=proved functions=16 sum=0'\n\
    echo \"rt: $name proved\"\n\
    done\n\
    echo 'rt: rows: trying its must-fail edits (1)'\n\
    echo 'rt: trial is kept: an earlier run on this machine proved the same files over the same libraries'\n\
    sleep TIME\n\
    for edit in wire/one rows/two; do\n\
    echo \"rt: must-fail $edit.edit: refused, as it must be: note: src/lib.rt:6:1: it is not proved\"\n\
    done\n\
    echo 'rt: ok; handles allowed: none; must-fail edits: 2 refused; every proof and must-fail edit was done in this run'\n\
    echo '5 passed, 0 failed'\n";

#[test]
fn each_step_has_a_line_in_the_beginning_and_one_with_its_time() {
    let (passed, last, all) = Gate::new("steps").run();
    assert!(passed, "{}", all);
    assert_eq!(last, "7 passed, 0 failed");
    assert!(!all.contains(&['\r', '\u{1b}'][..]), "{}", all);
    let said = all.lines().filter(|line| line.starts_with("test: step "));
    // One more tells of the crate.
    let said = said.filter(|line| !line.contains(": wire proved, "));
    let said: Vec<&str> = said.collect();
    assert_eq!(said.len(), 2 * STEPS.len(), "{}", all);
    for (i, step) in STEPS.iter().enumerate() {
        let head = format!("test: step {} of 9: ", i + 1);
        let begins = said[2 * i].trim_end_matches("..");
        assert!(format!("{}{}", head, step).starts_with(begins), "{}", all);
        let ends = format!("{}{} took ", head, name_of(step));
        assert!(said[2 * i + 1].starts_with(&ends), "{}", all);
        assert!(said[2 * i].len() < 80, "{}", all);
    }
}

#[test]
fn crates_and_edits_are_counted() {
    let gate = Gate::new("counted");
    with_crates_and_edits(&gate, "0");
    let (passed, last, all) = gate.run();
    assert!(passed, "{}", all);
    assert_eq!(last, "5 passed, 0 failed");
    // Each behind rt's own line; from these the times are read.
    for expected in [
        "\nrt: wire proved\ntest: step 2 of 9: wire proved, 1 of 3 crates, ",
        "\nrt: rows proved\ntest: step 2 of 9: rows proved, 2 of 3 crates, ",
        " over the same libraries\ntest: step 2 of 9: trial kept, 3 of 3 crates, ",
        " it is not proved\ntest: step 2 of 9: rows/two refused, 2 of 2 edits, ",
    ] {
        assert!(all.contains(expected), "{}", all);
    }
    let took = all
        .lines()
        .find(|line| line.starts_with("test: step 2 of 9: rt ci took "));
    assert!(took.unwrap().ends_with(" s, 3 crates, 2 edits"), "{}", all);
}

#[test]
fn the_crates_of_the_host_are_counted() {
    let gate = Gate::new("host-counted");
    for name in ["archive", "bench"] {
        let folder = gate.folder.join("host").join(name);
        fs::create_dir_all(&folder).unwrap();
        fs::write(folder.join("Cargo.toml"), "").unwrap();
    }
    gate.tool(
        "cargo",
        "echo '   Compiling archive v0.1.0 (/somewhere/host/archive)' >&2\n\
         for name in archive bench bench; do\n\
         echo \"     Running unittests src/lib.rs (target/host/release/deps/$name-2e12607addee7163)\" >&2\n\
         done\n\
         echo '     Running tests/long.rs (target/host/release/deps/long-2e12607addee7163)' >&2\n\
         echo '   Doc-tests archive' >&2\n\
         echo '   Doc-tests bench' >&2\n",
    );
    let (passed, _, all) = gate.run();
    assert!(passed, "{}", all);
    for expected in [
        "test: step 7 of 9: compiling archive, ",
        "test: step 7 of 9: host/archive tested, 1 of 2 crates, ",
        "test: step 7 of 9: host/bench tested, 2 of 2 crates, ",
    ] {
        assert_eq!(all.matches(expected).count(), 1, "{}", all);
    }
}

#[test]
fn on_a_terminal_one_line_changes_and_a_line_for_each_step_stays() {
    let gate = Gate::new("terminal");
    with_crates_and_edits(&gate, "2.4");
    let (passed, written) = gate.on_a_terminal();
    assert!(passed, "{:?}", written);
    for expected in [
        "\rtest: step 2 of 9: proving wire, 0 of 3 crates done, ",
        "\rtest: step 2 of 9: trying the edits of rows, 0 of 2 edits done, ",
    ] {
        assert!(written.contains(expected), "{:?}", written);
    }
    let stands = terminal::standing(&written);
    assert_eq!(stands.len(), STEPS.len() + 1, "{:?}", written);
    for (i, step) in STEPS.iter().enumerate() {
        let line = format!("test: step {} of 9: {} took ", i + 1, name_of(step));
        assert!(stands[i].starts_with(&line), "{:?}", written);
    }
    assert!(
        stands[1].ends_with(" s, 3 crates, 2 edits"),
        "{:?}",
        written
    );
    assert_eq!(stands[STEPS.len()], "5 passed, 0 failed");
}

#[test]
fn on_a_terminal_what_a_failed_step_said_is_shown() {
    let gate = Gate::new("terminal-red");
    gate.tool(
        "cargo",
        "echo 'test result: FAILED. 2 passed; 1 failed'\necho '9 passed, 0 failed'\nexit 101\n",
    );
    let (passed, written) = gate.on_a_terminal();
    assert!(!passed, "{:?}", written);
    let stands = terminal::standing(&written);
    assert_eq!(
        stands[6..],
        [
            "test result: FAILED. 2 passed; 1 failed",
            "test: not passed: cargo test, the host tests (exit status 101)"
        ],
        "{:?}",
        written
    );
}

#[test]
fn ctrl_c_is_red_and_ends_all_that_was_started() {
    let gate = Gate::new("ctrl-c");
    let started = gate.folder.join("started");
    gate.rt("sleep 1000 >/dev/null 2>&1 &\necho $! >started\nwait\n");
    let command = format!(
        "{}; sleep 1; grep -qs sleep \"/proc/$(cat '{}')/cmdline\" || echo nothing is left",
        gate.command(),
        started.display()
    );
    let done = terminal::run_until(&started, &command, &gate.path());
    let written = String::from_utf8_lossy(&done.stdout);
    assert_eq!(
        terminal::standing(&written)[1..],
        [
            "test: not passed: rt ci, every proof and every must-fail edit (exit status 130)",
            "nothing is left"
        ],
        "{:?}",
        written
    );
}
