//! The definitions of a file of antt, and what each of them names.

use crate::crates;
use std::collections::{BTreeMap, BTreeSet};

/// What a text names: the file where it stands, or a module of the kit, and its name there.
pub type Name = (String, String);

/// A definition of a file: its name, how many lines it has without its comments, and what its text names.
pub struct Definition {
    pub file: String,
    pub name: String,
    pub lines: usize,
    pub names: BTreeSet<Name>,
}

/// What the words of a file stand for, by its `use` lines and by its own declarations.
#[derive(Default)]
pub struct Scope {
    words: BTreeMap<String, Name>,
    prefixes: BTreeMap<String, (String, Option<String>)>,
}

impl Scope {
    /// By the `use` lines of a source.
    pub fn of(source: &str) -> Scope {
        let mut scope = Scope::default();
        let lines = source
            .lines()
            .map(|line| line.strip_prefix("ghost ").unwrap_or(line));
        lines
            .filter_map(|line| line.strip_prefix("use "))
            .for_each(|line| scope.take_in(line.trim_end_matches(';')));
        scope
    }

    fn take_in(&mut self, line: &str) {
        if let Some((module, names)) = line.split_once(".{") {
            let names = names.trim_end_matches('}').split(", ");
            names.for_each(|name| self.add(&home(module), name, type_of(module)));
        } else if let Some((module, prefix)) = line.split_once(" as ") {
            let owner = type_of(module).map(str::to_string);
            self.prefixes
                .insert(prefix.to_string(), (home(module), owner));
        }
    }

    /// `◌∈◌` is written as `∈`, and `Message.start_view` as `start_view`, which is a word of `Message`.
    fn add(&mut self, home: &str, name: &str, owner: Option<&str>) {
        let (whole, word) = name.split_once('.').unwrap_or((name, name));
        let stands = (home.to_string(), owner.unwrap_or(whole).to_string());
        self.words
            .insert(word.trim_matches('◌').to_string(), stands);
    }

    /// `merge.call_number` is a name of a module that is imported whole, and `valley.row_limit` a field of what is named before it.
    fn meaning(&self, word: &str) -> Option<Name> {
        if let Some(found) = self.words.get(word) {
            return Some(found.clone());
        }
        let (prefix, name) = word.split_once('.')?;
        let (home, owner) = match self.prefixes.get(prefix) {
            Some(module) => module,
            None => return self.words.get(prefix).cloned(),
        };
        let whole = name.split('.').next().unwrap_or(name).to_string();
        Some((home.clone(), owner.clone().unwrap_or(whole)))
    }

    /// What a text names. A label of a record, as in `{ table = .. }`, is no name.
    pub fn names(&self, text: &str) -> BTreeSet<Name> {
        let words = words(text);
        let is_label = |k: usize| {
            k > 0 && ["{", ";"].contains(&words[k - 1]) && words.get(k + 1) == Some(&"=")
        };
        (0..words.len())
            .filter(|k| !is_label(*k))
            .filter_map(|k| self.meaning(words[k].trim_end_matches('.')))
            .collect()
    }
}

/// Where the names of a module stand: in a file of `specs/`, in a source of the code, or in the kit, whose modules are named in
/// the same way.
fn home(module: &str) -> String {
    let path = module
        .strip_prefix("Rattle.")
        .and_then(|own| own.split_once('.'));
    let (name, path) = match path.filter(|(name, _)| crates().iter().any(|own| own == name)) {
        Some(parts) => parts,
        None => return module.to_string(),
    };
    match path.strip_prefix("specs.declared.") {
        // `row.RowFields` is a type of the source `row`, and `Proposal` alone one of the crate's first source
        Some(path) => match type_path(path)[..] {
            [source, _] => format!("{}/src/{}", name, source),
            _ => format!("{}/src/lib", name),
        },
        None => format!("{}/{}", name, path.replace('.', "/")),
    }
}

/// The words of a path to a type of the code; `TheVariants` behind it are its own.
fn type_path(path: &str) -> Vec<&str> {
    path.split('.')
        .filter(|part| *part != "TheVariants")
        .collect()
}

/// The type of the code that a module is about.
fn type_of(module: &str) -> Option<&str> {
    let (_, path) = module.split_once(".declared.")?;
    type_path(path).last().copied()
}

/// The words of a text, each bracket, comma and semicolon a word of its own.
fn words(text: &str) -> Vec<&str> {
    let is_mark = |c: char| "(){};,".contains(c);
    let mut found = Vec::new();
    for piece in text
        .split_whitespace()
        .flat_map(|piece| piece.split_inclusive(is_mark))
    {
        let mark = piece
            .char_indices()
            .last()
            .filter(|(_, last)| is_mark(*last));
        let (word, rest) = piece.split_at(mark.map_or(piece.len(), |(at, _)| at));
        found.extend([word, rest]);
    }
    found.retain(|word| !word.is_empty());
    found
}

/// A declaration as it stands in its file, with the head of the block around it, which gives it its arguments.
struct Declaration {
    name: String,
    lines: Vec<String>,
    block: String,
}

impl Declaration {
    /// The constructors, if this is a type that has some.
    fn constructors(&self) -> Vec<&str> {
        let is_data = self.lines[0].split_whitespace().any(|word| word == "data");
        let inner = self.lines.iter().skip(1).filter(|_| is_data);
        inner
            .filter_map(|line| line.split_once(" : "))
            .flat_map(|(names, _)| names.split_whitespace())
            .collect()
    }
}

/// A line without its comment.
fn without_comment(line: &str) -> &str {
    match line.find("--") {
        Some(at) if line[..at].trim().is_empty() => "",
        Some(at) if line[..at].ends_with(' ') => line[..at].trim_end(),
        _ => line.trim_end(),
    }
}

/// The name that a line declares: `abbrev pub name : ..`, `pub record Name ..`.
fn declared(line: &str) -> Option<&str> {
    let marks = ["abbrev", "unfoldable", "pub", "record", "data"];
    let mut words = line.split_whitespace();
    marks.contains(&words.clone().next()?).then(|| ())?;
    words.find(|word| !marks.contains(word))
}

fn declarations(source: &str) -> Vec<Declaration> {
    let mut found: Vec<Declaration> = Vec::new();
    let mut block = "";
    for line in source.lines().map(without_comment) {
        let depth = line.len() - line.trim_start().len();
        if depth == 0 && !line.is_empty() {
            block = if line.starts_with("module ") {
                line
            } else {
                ""
            };
        }
        let apart = ["use ", "infix ", "module "];
        if line.is_empty() || apart.iter().any(|word| line.starts_with(word)) {
            continue;
        }
        let here = if block.is_empty() { 0 } else { 2 };
        match declared(line).filter(|_| depth == here) {
            Some(name) => found.push(Declaration {
                name: name.to_string(),
                lines: vec![line.to_string()],
                block: block.to_string(),
            }),
            None => {
                let last = found.last_mut().expect("a declaration above");
                last.lines.push(line.to_string());
            }
        }
    }
    found
}

/// The definitions of a file of `specs/`, from its source.
pub fn definitions(file: &str, source: &str) -> Vec<Definition> {
    let mut scope = Scope::of(source);
    let declarations = declarations(source);
    for declaration in &declarations {
        scope.add(file, &declaration.name, None);
        let inner = declaration.constructors();
        inner
            .iter()
            .for_each(|word| scope.add(file, word, Some(&declaration.name)));
    }
    let said = |d: &Declaration| format!("{} {}", d.block, d.lines.join(" "));
    declarations
        .iter()
        .map(|declaration| Definition {
            file: file.to_string(),
            name: declaration.name.clone(),
            lines: declaration.lines.len(),
            names: scope.names(&said(declaration)),
        })
        .collect()
}
