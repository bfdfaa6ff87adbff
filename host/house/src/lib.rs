//! What the tests of the repository share: where it is, which crates it lists, and what its papers cite.

pub mod trust;

use std::fs;
use std::os::unix::fs::PermissionsExt;
use std::path::{Path, PathBuf};
use std::process::{Command, Output, Stdio};
use std::sync::{Mutex, MutexGuard};

/// The repository's top folder.
pub fn top() -> PathBuf {
    Path::new(env!("CARGO_MANIFEST_DIR"))
        .join("../..")
        .canonicalize()
        .expect("the repository's top folder")
}

/// The text of a file of the repository.
pub fn text(path: &str) -> String {
    fs::read_to_string(top().join(path)).unwrap_or_else(|error| panic!("{}: {}", path, error))
}

/// Held while a file that will be run is written, and while a process is started. A process that is being started has, for a
/// moment, every file open that is open here; and what somebody has open for writing cannot be run.
static STARTING: Mutex<()> = Mutex::new(());

fn starting() -> MutexGuard<'static, ()> {
    // A test that failed has left nothing half done under it.
    STARTING.lock().unwrap_or_else(|broken| broken.into_inner())
}

/// Writes a script of bash that can be run. What was there, a link to a tool perhaps, goes.
pub fn write_script(path: &Path, body: &str) {
    let _held = starting();
    let _ = fs::remove_file(path);
    fs::write(path, format!("#!/usr/bin/env bash\n{}", body)).unwrap();
    fs::set_permissions(path, fs::Permissions::from_mode(0o755)).unwrap();
}

/// Copies a script of the repository into a folder, to its path from the top.
pub fn copy_script(file: &str, folder: &Path) {
    let _held = starting();
    fs::copy(top().join(file), folder.join(file)).unwrap();
}

/// Runs a command to its end.
pub fn finish(command: &mut Command) -> Output {
    let pipes = command
        .stdin(Stdio::null())
        .stdout(Stdio::piped())
        .stderr(Stdio::piped());
    let held = starting();
    let started = pipes.spawn();
    drop(held);
    let started = started.unwrap_or_else(|error| panic!("{:?}: {}", command, error));
    started.wait_with_output().unwrap()
}

/// The crates of crates.txt, in its order. Behind the name may stand that it is a static library.
pub fn crates() -> Vec<String> {
    text("crates.txt")
        .lines()
        .map(|line| line.split('#').next().unwrap_or(""))
        .filter_map(|line| line.split_once(':'))
        .filter_map(|(head, _)| head.split_whitespace().next())
        .map(str::to_string)
        .collect()
}

/// The files below a folder of the repository whose names end so, with their paths from the top. What rt makes of a crate, in its
/// `out/`, is none of them.
pub fn files(folder: &str, ending: &str) -> Vec<String> {
    let mut found = Vec::new();
    let mut open = vec![top().join(folder)];
    while let Some(here) = open.pop() {
        for entry in fs::read_dir(&here).into_iter().flatten().flatten() {
            let path = entry.path();
            if path.is_dir() {
                if path.file_name() != Some("out".as_ref()) {
                    open.push(path);
                }
            } else if path.to_string_lossy().ends_with(ending) {
                let from_top = path.strip_prefix(top()).expect("a path below the top");
                found.push(from_top.to_string_lossy().into_owned());
            }
        }
    }
    found.sort();
    found
}

/// The papers: README.md and every page below docs/.
pub fn papers() -> Vec<String> {
    let mut papers = files("docs", ".md");
    papers.insert(0, "README.md".to_string());
    papers
}

/// The pages of the claims, one for each chapter; the index is none of them.
pub fn claim_pages() -> Vec<String> {
    let pages = files("docs/CLAIMS", ".md").into_iter();
    pages
        .filter(|page| page != "docs/CLAIMS/README.md")
        .collect()
}

/// The lines of a text outside its fenced blocks of code.
pub fn outside_blocks(text: &str) -> Vec<&str> {
    let mut in_code = false;
    let mut found = Vec::new();
    for line in text.lines() {
        if line.trim_start().starts_with("```") {
            in_code = !in_code;
        } else if !in_code {
            found.push(line);
        }
    }
    found
}

/// The words that a paper sets in backticks, outside its blocks of code.
pub fn cited(paper: &str) -> Vec<String> {
    let text = text(paper);
    let lines = outside_blocks(&text).into_iter();
    lines
        .flat_map(|line| line.split('`').skip(1).step_by(2))
        .map(str::to_string)
        .collect()
}

/// Whether what a citation names is there. `None` for words that name nothing of the tree.
///
/// `wire::u32_at` is a function of a crate, `numbers::Refusal` a type, `table::header::read` a function of a module, `wire/proofs/Numbers.read_back`
/// a definition or a theorem, `wire/must-fail/..` and `rows/more-must-fail/..` edits, and a path that begins with one of
/// the repository's folders is that file; behind a tool may stand the words that it is given, as in `tools/agree 7`.
pub fn stands(citation: &str) -> Option<bool> {
    let crates = crates();
    if let Some((name, function)) = citation.split_once("::") {
        if !crates.iter().any(|c| c == name) {
            return None;
        }
        return Some(declares_function(name, function));
    }
    let (first, rest) = citation.split_once('/')?;
    if crates.iter().any(|c| c == first) {
        return Some(stands_in_crate(first, rest));
    }
    let folders = [
        ".ci", "crates", "docs", "examples", "host", "include", "tools",
    ];
    if folders.contains(&first) {
        let path = citation.split(' ').next().unwrap_or(citation);
        return Some(top().join(path).exists());
    }
    None
}

/// Whether a source of the crate has this function or type: `u32_at` in any of them, `header::read` in the module that is named,
/// `header::Header::with_view` there too, as a method, and `Refusal::number` in any of them, since types begin with a capital.
fn declares_function(name: &str, path: &str) -> bool {
    let parts: Vec<&str> = path.split("::").collect();
    let sources = match parts.as_slice() {
        [module, _, ..] if module.starts_with(char::is_lowercase) => {
            vec![format!("crates/{}/src/{}.rt", name, module)]
        }
        _ => files(&format!("crates/{}/src", name), ".rt"),
    };
    let item = parts[parts.len() - 1];
    // Behind the name stand parameters in brackets of either kind, or the fields of a type.
    let forms = [
        format!("fn {}(", item),
        format!("fn {}<", item),
        format!("struct {} ", item),
        format!("struct {}<", item),
        format!("enum {} ", item),
    ];
    sources.iter().any(|file| {
        fs::read_to_string(top().join(file))
            .map(|source| forms.iter().any(|form| source.contains(form)))
            .unwrap_or(false)
    })
}

fn stands_in_crate(name: &str, rest: &str) -> bool {
    if let Some((folder @ ("must-fail" | "more-must-fail"), label)) = rest.split_once('/') {
        return top()
            .join(format!("crates/{}/{}/{}.edit", name, folder, label))
            .is_file();
    }
    let (file, item) = match rest.rsplit_once('.') {
        Some(parts) => parts,
        None => return false,
    };
    let path = top().join(format!("crates/{}/{}.antt", name, file));
    fs::read_to_string(path)
        .map(|text| text.lines().any(|line| declares(line, item)))
        .unwrap_or(false)
}

/// Whether a line of antt declares this name: `pub name : ..`, `record Name ..`, with any marks before it.
fn declares(line: &str, item: &str) -> bool {
    let mut words = line.split_whitespace();
    let word = words.find(|w| !["abbrev", "unfoldable", "pub", "record", "data"].contains(w));
    word == Some(item) && words.next().is_some()
}

/// A change of a source, as the prover or the cases are tried on it: a sentence that says what is changed, then the file, and each
/// text that is changed, the old one and the new one, on lines of their own.
pub struct Edit<'a> {
    pub sentence: &'a str,
    pub file: &'a str,
    pub changes: Vec<(&'a str, &'a str)>,
}

impl<'a> Edit<'a> {
    pub fn of(text: &'a str) -> Edit<'a> {
        let behind = |word: &str| -> Vec<&'a str> {
            let said = text.lines().filter_map(|line| line.strip_prefix(word));
            said.collect()
        };
        let (files, old, new) = (behind("file: "), behind("old: "), behind("new: "));
        assert_eq!(files.len(), 1, "{}", text);
        assert!(!old.is_empty() && old.len() == new.len(), "{}", text);
        Edit {
            sentence: text.lines().next().unwrap_or(""),
            file: files[0],
            changes: old.into_iter().zip(new).collect(),
        }
    }

    /// Holds that each old text stands exactly once in the file, which is one of this folder of the repository.
    pub fn fits(&self, folder: &str) {
        let source = text(&format!("{}/{}", folder, self.file));
        for (old, new) in &self.changes {
            assert_eq!(source.matches(old).count(), 1, "{}: {}", self.sentence, old);
            assert_ne!(old, new, "{}", self.sentence);
        }
    }

    /// The file with the changes made.
    pub fn made(&self, folder: &str) -> String {
        let source = text(&format!("{}/{}", folder, self.file));
        let changes = self.changes.iter();
        changes.fold(source, |source, (old, new)| source.replacen(old, new, 1))
    }
}
