//! What a reader must believe: the definitions of `specs/` that the promises name, and those that these name in turn.

pub mod antt;
pub mod page;

use crate::{crates, text, top};
use antt::{Definition, Name, Scope};
use std::collections::{BTreeMap, BTreeSet};

/// Where the contracts of the C boundary stand.
pub const BOUNDARY: &str = "crates/sprondilu/src/lib.rt";

/// The statements of demand 3, over the rules and in buffers and calls, and what request P2 has us show, each with the
/// theorem that says when it holds.
pub const STATEMENTS: [(&str, &str, &str); 3] = [
    (
        "history/specs/Survival",
        "history/proofs/Survival",
        "survival",
    ),
    (
        "group/specs/Survival",
        "group/proofs/Survival",
        "calls_survive",
    ),
    (
        "group/specs/NeverFull",
        "group/proofs/NeverFull",
        "merge_never_full",
    ),
];

/// Statements that no promise rests on, and the definitions that only they name: computed cases and histories, and what is
/// proved beyond demand 3.
const BESIDE: [&str; 3] = [
    "cases/specs/",
    "history_cases/specs/",
    "history/specs/Beyond",
];

/// What a file of `specs/` is to a reader.
#[derive(Clone, Copy, PartialEq, Eq, Debug)]
pub enum Kind {
    /// It has to be believed by whoever relies on a promise.
    Promised,
    /// Functions below a call speak of it, and laws about them.
    Inner,
    /// It belongs to a statement beside the promises.
    Beside,
}

/// By its place in the tree alone.
pub fn kind(file: &str) -> Kind {
    if file.contains("/specs/Inner/") {
        Kind::Inner
    } else if BESIDE.iter().any(|place| file.starts_with(place)) {
        Kind::Beside
    } else {
        Kind::Promised
    }
}

/// The files that a module of `specs/` names, in its order, and those of the modules among them.
fn files_of(module: &str) -> Vec<String> {
    let lists = ["/Lib.antt", ".antt"].map(|end| format!("crates/{}{}", module, end));
    let list = lists.iter().find(|list| top().join(list).is_file());
    let listed = list.map(|list| text(list)).unwrap_or_default();
    let names = listed
        .lines()
        .filter_map(|line| line.strip_prefix("pub mod "));
    let mut found = Vec::new();
    for name in names {
        let file = format!("{}/{}", module, name.trim());
        let below = files_of(&file);
        found.extend(if below.is_empty() { vec![file] } else { below });
    }
    found
}

/// The files of all `specs/`, in reading order.
pub fn files() -> Vec<String> {
    let folders = crates().into_iter().map(|name| format!("{}/specs", name));
    folders.flat_map(|folder| files_of(&folder)).collect()
}

/// All definitions of `specs/`, in reading order.
pub fn definitions() -> Vec<Definition> {
    let of = |file: &String| antt::definitions(file, &text(&format!("crates/{}.antt", file)));
    files().iter().flat_map(of).collect()
}

/// What the contracts of the functions that C calls name, with the name of each function.
pub fn contracts(source: &str) -> Vec<(String, BTreeSet<Name>)> {
    let scope = Scope::of(source);
    let mut found: Vec<(String, BTreeSet<Name>)> = Vec::new();
    let mut public = false;
    let mut clause = String::new();
    for line in source.lines() {
        if let Some((_, function)) = line.split_once("pub extern \"C\" fn ") {
            let name = function.split('(').next().unwrap_or(function);
            found.push((name.to_string(), BTreeSet::new()));
        }
        // A signature of several lines ends with one that begins with its bracket.
        public = line.starts_with("pub extern") || public && line.starts_with(&[' ', ')'][..]);
        let begins = ["requires", "ensures"].map(|word| line.trim_start().starts_with(word));
        if public && (begins.contains(&true) || !clause.is_empty()) {
            clause += line;
            clause += " ";
        }
        let depth = |bracket: char| clause.matches(bracket).count();
        if !clause.is_empty() && depth('{') == depth('}') {
            let (_, names) = found.last_mut().expect("the function of a contract");
            // Before its bracket a clause has a name of its own.
            names.extend(scope.names(clause.split_once('{').map_or("", |(_, said)| said)));
            clause.clear();
        }
    }
    found
}

/// What the statement of a theorem names.
fn named_by_theorem(source: &str, theorem: &str) -> BTreeSet<Name> {
    let signature = format!("pub {} :", theorem);
    let from_here = source
        .lines()
        .skip_while(|line| !line.starts_with(&signature));
    let statement: Vec<&str> = from_here
        .enumerate()
        .take_while(|(k, line)| *k == 0 || line.starts_with(' '))
        .map(|(_, line)| line)
        .collect();
    assert!(!statement.is_empty(), "there is no theorem {}", theorem);
    Scope::of(source).names(&statement.join(" "))
}

/// What is promised names this.
fn named_at_first(definitions: &[Definition]) -> Vec<Name> {
    let calls = contracts(&text(BOUNDARY)).into_iter();
    let mut named: Vec<Name> = calls.flat_map(|(_, names)| names).collect();
    for (file, proof, theorem) in STATEMENTS {
        let stated = definitions.iter().filter(|d| d.file == file);
        named.extend(stated.map(|d| (d.file.clone(), d.name.clone())));
        named.extend(named_by_theorem(
            &text(&format!("crates/{}.antt", proof)),
            theorem,
        ));
    }
    named
}

/// What the promises name, and what that names in turn: definitions of `specs/`, types of the code, names of the kit.
pub fn named_by_promises(definitions: &[Definition]) -> BTreeSet<Name> {
    let names_of: BTreeMap<(&str, &str), &BTreeSet<Name>> = definitions
        .iter()
        .map(|d| ((d.file.as_str(), d.name.as_str()), &d.names))
        .collect();
    let mut open = named_at_first(definitions);
    let mut found = BTreeSet::new();
    while let Some(name) = open.pop() {
        if !found.insert(name.clone()) {
            continue;
        }
        let more = names_of.get(&(name.0.as_str(), name.1.as_str()));
        open.extend(more.into_iter().flat_map(|names| names.iter().cloned()));
    }
    found
}
