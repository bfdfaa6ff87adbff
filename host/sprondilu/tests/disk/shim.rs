//! Runs of the program behind a shim that writes down its calls and spoils one of them.

use crate::common::{program, Folder, Ran};
use std::fs;
use std::path::{Path, PathBuf};
use std::process::Command;
use std::sync::Once;

/// The shim, compiled once.
fn shim() -> PathBuf {
    static COMPILED: Once = Once::new();
    let made = Path::new(env!("CARGO_TARGET_TMPDIR"));
    let shim = made.join("shim.so");
    COMPILED.call_once(|| {
        // Another run of the tests may be using the one that is there.
        let new = made.join(format!("shim-{}.so", std::process::id()));
        let source = Path::new(env!("CARGO_MANIFEST_DIR")).join("tests/disk/shim.c");
        let compiled = Command::new("cc")
            .args([
                "-std=c11", "-Wall", "-Wextra", "-Werror", "-O1", "-shared", "-fPIC",
            ])
            .arg(source)
            .arg("-o")
            .arg(&new)
            .arg("-ldl")
            .output()
            .expect("a C compiler");
        assert!(compiled.status.success(), "{:?}", compiled);
        fs::rename(&new, &shim).expect("the shim");
    });
    shim
}

/// A call that the program made.
#[derive(Clone, Debug, PartialEq, Eq)]
pub struct Call {
    pub name: String,
    /// The file's name without its folder, and that of the file that it becomes.
    pub file: String,
    pub becomes: String,
    /// How many bytes are written; of a file that is created, its mode.
    pub bytes: usize,
}

/// What is done to which call.
#[derive(Clone, Copy, Debug)]
pub struct Spoilt {
    pub turn: usize,
    pub how: &'static str,
}

/// Runs a line behind the shim: how it ended, and the calls that it made.
pub fn run(folder: &Folder, line: &str, spoilt: Option<Spoilt>) -> (Ran, Vec<Call>) {
    run_with(folder, line, spoilt, &[])
}

/// The same, with more settings of the shim.
pub fn run_with(
    folder: &Folder,
    line: &str,
    spoilt: Option<Spoilt>,
    settings: &[(&str, &str)],
) -> (Ran, Vec<Call>) {
    // The log lies elsewhere, so that the folder has only what the program put there.
    let logs = Folder::new();
    let mut command = program(folder);
    command.env("LD_PRELOAD", shim());
    command.env("SHIM_LOG", logs.at("log"));
    if let Some(Spoilt { turn, how }) = spoilt {
        command.env("SHIM_AT", turn.to_string()).env("SHIM_DO", how);
    }
    command.envs(settings.iter().copied());
    let output = command.args(line.split_whitespace()).output();
    let ran = Ran::of(line.to_string(), output.expect("a program to run"));
    let log = fs::read_to_string(logs.at("log")).unwrap_or_default();
    (ran, log.lines().map(call).collect())
}

fn call(line: &str) -> Call {
    let parts: Vec<&str> = line.split('\t').collect();
    let name = |path: &str| path.rsplit('/').next().unwrap_or("").to_string();
    Call {
        name: parts[1].to_string(),
        file: name(parts[2]),
        becomes: name(parts[3]),
        bytes: parts[4].parse().expect("a number"),
    }
}
