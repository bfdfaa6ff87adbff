//! Instructions of each side for a work, as valgrind's callgrind counts them in runs of this program, or of that of another
//! commit.

use crate::{refuse, Named, Side};
use std::env;
use std::path::Path;
use std::process::Command;

/// The status with which a benchmark ends that does not know its words.
const REFUSED: i32 = 2;

/// Those of a side for doing a work of this size once: what the program does besides is taken off, as a run that does it
/// not at all has it.
pub fn for_one(work: &Named, side: &Side, size: usize) -> u64 {
    let program = env::current_exe().expect("the path of this program");
    let counted = by_program(&program, work, side, size);
    counted.unwrap_or_else(|| refuse("this program does not know its own works"))
}

/// The same by a given program, which may be of another commit. None if that one does not know the work.
pub fn by_program(program: &Path, work: &Named, side: &Side, size: usize) -> Option<u64> {
    with_words_before(program, &[], work, side, size)
}

/// The same by this program for a side that it is told of by these words before those of the work.
pub fn for_one_after(words: &[&str], work: &Named, side: &Side, size: usize) -> u64 {
    let program = env::current_exe().expect("the path of this program");
    let counted = with_words_before(&program, words, work, side, size);
    counted.unwrap_or_else(|| refuse("this program does not know its own works"))
}

fn with_words_before(
    program: &Path,
    words: &[&str],
    work: &Named,
    side: &Side,
    size: usize,
) -> Option<u64> {
    let times = (work.times_counted)(size);
    let of_run = |times: usize| {
        let (size, times) = (size.to_string(), times.to_string());
        let words = [words, &[work.name, side.name, &size, &times]].concat();
        of_run(program, &words)
    };
    Some((of_run(times)? - of_run(0)?) / times as u64)
}

/// All instructions of a run with these words, or none if the program refuses them.
fn of_run(program: &Path, words: &[&str]) -> Option<u64> {
    let mut valgrind = Command::new("valgrind");
    valgrind.args(["--tool=callgrind", "--callgrind-out-file=/dev/null"]);
    let ran = match valgrind.arg(program).args(words).output() {
        Ok(ran) => ran,
        Err(error) => refuse(&format!("valgrind, of the package of that name: {}", error)),
    };
    let said = String::from_utf8_lossy(&ran.stderr);
    match (ran.status.code(), collected(&said)) {
        (Some(0), Some(instructions)) => Some(instructions),
        (Some(REFUSED), Some(_)) => None,
        _ => refuse(&format!("valgrind did not count {:?}: {}", words, said)),
    }
}

fn collected(said: &str) -> Option<u64> {
    let figure = |line: &str| line.split_once(" Collected : ")?.1.trim().parse().ok();
    said.lines().find_map(figure)
}

#[cfg(test)]
mod tests {
    use super::collected;

    #[test]
    fn the_figure_is_found_in_what_valgrind_says() {
        let said =
            "==9== Events    : Ir\n==9== Collected : 588150\n==9==\n==9== I   refs:      588,150\n";
        assert_eq!(collected(said), Some(588_150));
        assert_eq!(collected("valgrind: no such tool\n"), None);
    }
}
