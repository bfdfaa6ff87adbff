//! What a command writes to a terminal. The terminal is `script`'s, of Debian's base.

use std::ffi::OsStr;
use std::path::Path;
use std::process::{Command, Output};

/// Runs the command of a shell on a terminal, with this PATH, to its end. What it wrote is in its stdout.
pub fn run(command: &str, path: &OsStr) -> Output {
    play("exec script -qec \"$COMMAND\" /dev/null", command, path)
}

/// The same, and Ctrl-C is pressed when the file is there. The shell itself lives on, as a user's does.
pub fn run_until(file: &Path, command: &str, path: &OsStr) -> Output {
    let pressed = format!(
        "{{ until [ -s '{}' ]; do sleep 0.1; done; sleep 1.2; printf '\\003'; }} | script -qec \"$COMMAND\" /dev/null",
        file.display()
    );
    play(&pressed, &format!("trap : INT; {}", command), path)
}

fn play(on_a_terminal: &str, command: &str, path: &OsStr) -> Output {
    let mut shell = Command::new("sh");
    shell.args(["-c", on_a_terminal]);
    let found = format!("export PATH='{}'; {}", path.to_string_lossy(), command);
    shell
        .env("COMMAND", found)
        .env("SHELL", "/bin/sh")
        .env("TERM", "xterm")
        .env_remove("COLUMNS");
    house::finish(&mut shell)
}

/// The lines as they stand in the end: of what was written over, the last.
pub fn standing(written: &str) -> Vec<String> {
    let lines = written.lines().map(|line| {
        let last = line.trim_end_matches('\r').rsplit('\r').next();
        last.unwrap_or("").replace("\u{1b}[K", "")
    });
    lines.collect()
}
