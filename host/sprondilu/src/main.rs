//! The command line: which command, how it ended, and what is printed of it.

use sprondilu::commands;
use sprondilu::ends::{Ended, Stop};
use std::ffi::OsString;
use std::io::{self, Write};
use std::process::ExitCode;

fn main() -> ExitCode {
    let words: Vec<OsString> = std::env::args_os().skip(1).collect();
    let ended = commands::run(words);
    match tell(&ended) {
        Ok(()) => ExitCode::from(ended.status()),
        // A pipe that nobody reads any more is no trouble of ours, and what was done is done.
        Err(error) if error.kind() == io::ErrorKind::BrokenPipe => ExitCode::from(ended.status()),
        Err(error) => {
            let done = if ended.status() == 0 {
                " What was asked is done all the same."
            } else {
                ""
            };
            let _ = writeln!(
                io::stderr(),
                "sprondilu: the answer cannot be printed: {}.{}",
                error,
                done
            );
            ExitCode::from(2)
        }
    }
}

/// Answers, refusals too, go to the standard output; what kept a command from being tried goes to the other.
fn tell(ended: &Ended) -> io::Result<()> {
    match ended {
        Ended::Answered(answer) => print(&answer.printed()),
        Ended::Stopped(Stop::Refused(refusal), as_json) => print(&refusal.printed(*as_json)),
        Ended::Stopped(Stop::Usage(what), _) => writeln!(io::stderr(), "sprondilu: {}", what),
        Ended::Stopped(Stop::Trouble(what), _) => writeln!(io::stderr(), "sprondilu: {}", what),
    }
}

fn print(text: &str) -> io::Result<()> {
    let mut out = io::stdout().lock();
    out.write_all(text.as_bytes())?;
    out.flush()
}
