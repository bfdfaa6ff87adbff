//! The house rules that a machine can hold the sources to.

use house::{files, text};
use std::collections::BTreeSet;

/// The lines of each function of a source in Rattle or Rust, from `fn` to the closing brace, with its name.
fn functions(source: &str) -> Vec<(String, usize)> {
    let mut found = Vec::new();
    let mut open: Option<(String, usize, usize)> = None;
    for line in source.lines() {
        let depth = line.len() - line.trim_start().len();
        if let Some((name, indent, lines)) = open.take() {
            if depth == indent && line.trim_end() == format!("{}}}", " ".repeat(indent)) {
                found.push((name, lines + 1));
            } else if depth != indent || !line.ends_with(';') {
                // What ends with a semicolon is a declaration, which has no lines.
                open = Some((name, indent, lines + 1));
            }
        } else if let Some(name) = function_name(line) {
            open = Some((name, depth, 1)).filter(|_| !line.ends_with(&[';', '}'][..]));
        }
    }
    found
}

fn function_name(line: &str) -> Option<String> {
    let words = line.trim_start().split_once("fn ")?;
    if !words
        .0
        .split_whitespace()
        .all(|w| ["pub", "const", "extern", "\"C\""].contains(&w))
    {
        return None;
    }
    Some(words.1.split(&['(', '<'][..]).next()?.to_string())
}

#[test]
fn a_function_has_under_forty_lines() {
    for (folder, ending, at_least) in [("crates", ".rt", 200), ("host", ".rs", 500)] {
        let mut seen = 0;
        for file in files(folder, ending) {
            for (name, lines) in functions(&text(&file)) {
                assert!(lines < 40, "{}: {} has {} lines", file, name, lines);
                seen += 1;
            }
        }
        assert!(seen > at_least, "only {} functions in {}", seen, folder);
    }
}

#[test]
fn a_long_function_would_be_noticed() {
    let long = format!(
        "pub fn long(\n    x: u8,\n) -> u8\n{{\n{}}}\n",
        "    x;\n".repeat(40)
    );
    assert_eq!(functions(&long), vec![("long".to_string(), 45)]);
    let declared = format!("    pub fn one(\n        x: u8,\n    ) -> u8;\n{}", long);
    assert_eq!(functions(&declared), vec![("long".to_string(), 45)]);
}

#[test]
fn no_proof_assumes_anything() {
    for file in files("crates", ".antt") {
        for (number, line) in text(&file).lines().enumerate() {
            let code = line.split("--").next().unwrap_or("");
            let bad = code.trim_start().starts_with("axiom ") || code.contains("Prim.Axiom");
            assert!(!bad, "{}:{}: {}", file, number + 1, line);
        }
    }
}

/// The sources with a line of code in which the words stand, each as often as it has one.
fn with_the_words(words: &str) -> Vec<String> {
    let mut found = Vec::new();
    for file in files("crates", ".rt") {
        for line in text(&file).lines() {
            let code = line.split("//").next().unwrap_or("");
            if code.contains(words) {
                found.push(file.clone());
            }
        }
    }
    found
}

/// "One small reader over a lent image serves every row-by-row walk": a row and its body are found in one place each, which
/// the reader calls, and a reader is asked for either in one place, which all the others call.
#[test]
fn a_row_is_read_through_the_reader_alone() {
    let row = "crates/rows/src/row.rt";
    let reader = "crates/rows/src/reader.rt";
    assert_eq!(with_the_words("row::fields_at("), [reader]);
    assert_eq!(with_the_words(" fields_at("), [row; 2]);
    assert_eq!(with_the_words("body_in("), [reader, row]);
    assert_eq!(with_the_words("reader::at("), [row; 2]);
    assert_eq!(with_the_words(".row()"), [row]);
    assert_eq!(with_the_words(".body()"), [row]);
    let walks = with_the_words("row_at(").len();
    assert!(walks > 10, "only {} lines take a row", walks);
}

/// Whoever read a row's numbers past the reader would have to take them from bytes. These sources do that at all: a reply that
/// is counted, a message, an access of a body, a row, a header.
#[test]
fn numbers_are_taken_from_bytes_in_few_places() {
    let readers = ["wire::u8_at(", "wire::u32_at(", "wire::u64_at("];
    let sources: BTreeSet<String> = readers.into_iter().flat_map(with_the_words).collect();
    let expected = [
        "crates/count/src/call.rt",
        "crates/message/src/kinds.rt",
        "crates/rows/src/body.rt",
        "crates/rows/src/row.rt",
        "crates/table/src/header.rt",
    ];
    assert!(sources.iter().eq(expected), "{:?}", sources);
    assert_eq!(with_the_words("number_at("), ["crates/wire/src/lib.rt"; 4]);
    assert_eq!(with_the_words("from_be_bytes("), ["crates/wire/src/lib.rt"]);
}
