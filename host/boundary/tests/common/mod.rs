//! What the tests share that compile C against the header and link it with the library.

use std::fs;
use std::io::ErrorKind;
use std::path::{Path, PathBuf};
use std::process::{Command, Output};

const WARNINGS: [&str; 6] = [
    "-Wall",
    "-Wextra",
    "-Wpedantic",
    "-Wconversion",
    "-Wshadow",
    "-Werror",
];

/// A path below this crate's folder.
pub fn here(path: &str) -> PathBuf {
    Path::new(env!("CARGO_MANIFEST_DIR")).join(path)
}

/// A path in a folder for what tests make.
pub fn made(name: &str) -> PathBuf {
    Path::new(env!("CARGO_TARGET_TMPDIR")).join(name)
}

/// Compiles sources against the header, with every warning an error, and links them with the library; nothing if there is
/// no such compiler.
pub fn compile(
    compiler: &str,
    standard: &str,
    sources: &[PathBuf],
    program: &Path,
) -> Option<Output> {
    let _ = fs::remove_file(program);
    let run = Command::new(compiler)
        .arg(standard)
        .args(WARNINGS)
        .arg("-I")
        .arg(here("../../include"))
        .args(sources)
        .arg(env!("SPRONDILU_ARCHIVE"))
        .arg("-o")
        .arg(program)
        .output();
    match run {
        Err(error) if error.kind() == ErrorKind::NotFound => None,
        other => Some(other.expect("a compiler that can be run")),
    }
}

pub fn assert_done(what: &str, done: &Output) {
    let said = String::from_utf8_lossy(&done.stderr);
    assert!(done.status.success(), "{}: {}: {}", what, done.status, said);
}
