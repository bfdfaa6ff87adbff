//! The page that says what a reader must believe.

use super::antt::{Definition, Name};
use super::{contracts, definitions, files, kind, named_by_promises, Kind, BOUNDARY, STATEMENTS};
use crate::{crates, text};
use std::collections::BTreeSet;

/// Where the page stands.
pub const PAGE: &str = "docs/TRUST.md";

/// Words in lines of at most 118 characters.
fn wrapped(text: &str) -> String {
    let mut lines = vec![String::new()];
    for word in text.split_whitespace() {
        let last = lines.last_mut().expect("a line");
        if last.is_empty() {
            last.push_str(word);
        } else if last.chars().count() + 1 + word.chars().count() <= 118 {
            *last = format!("{} {}", last, word);
        } else {
            lines.push(word.to_string());
        }
    }
    lines.join("\n")
}

/// `1 definition`, `2 definitions`.
fn counted(count: usize, word: &str) -> String {
    format!("{} {}{}", count, word, if count == 1 { "" } else { "s" })
}

/// How many definitions there are, and how many lines they have.
fn sums(of: &[&Definition]) -> (usize, usize) {
    (of.len(), of.iter().map(|d| d.lines).sum())
}

/// The comment at the top of a file: what it says of itself.
fn first_words(file: &str) -> String {
    let source = text(&format!("crates/{}.antt", file));
    let lines = source.lines().map_while(|line| line.strip_prefix("-- "));
    lines.collect::<Vec<&str>>().join(" ")
}

/// What the page says before its lists.
const OPENING: [&str; 3] = [
    "`tools/trust` writes this page from the tree, and a host test holds it to the tree. Nothing on it is written by hand.",
    "A proof is checked by a program, so nobody has to believe it. A definition is checked by its reader alone. Whoever relies on \
     the three promises has to believe that the definitions on this page say what document 01 says, and what the landed requests of \
     document 02 say. Where one renders a sentence of either, the sentence is quoted above it in its file. No other definition has to be believed for the promises.",
    "A definition is on this page if what is promised names it, or if a definition on this page does. This is promised:",
];

/// How to go about it.
const READING: &str = "Read the contracts first, and then the files of the list from the top. Those of `rules` are in the order of \
    document 01. Of the others each uses only what stands above it.";

/// An item of a list, its further lines under its first word.
fn item(text: &str) -> String {
    wrapped(text).replace('\n', "\n  ")
}

/// What is promised, and so where the list begins.
fn promised() -> Vec<String> {
    let calls = contracts(&text(BOUNDARY)).into_iter();
    let calls: Vec<String> = calls.map(|(name, _)| format!("`{}`", name)).collect();
    let statement = |which: usize, said: &str| {
        let (file, proof, theorem) = STATEMENTS[which];
        item(&format!(
            "- {}: all of `crates/{}.antt`, and the statement of `{}.{}`",
            said, file, proof, theorem
        ))
    };
    let contracts = format!(
        "- the contracts of the {} calls of the C boundary, in `{}`: {}",
        calls.len(),
        BOUNDARY,
        calls.join(", ")
    );
    vec![
        item(&contracts),
        statement(0, "demand 3 over the rules"),
        statement(1, "demand 3 in buffers and calls"),
        statement(
            2,
            "that no merge is refused as full, which P2 asks for, in buffers and calls",
        ),
    ]
}

fn opening() -> String {
    let paragraphs = OPENING.map(wrapped);
    format!(
        "# What a reader must believe\n\n{}\n\n{}\n\n{}\n",
        paragraphs.join("\n\n"),
        promised().join("\n"),
        wrapped(READING)
    )
}

/// What the tree shows of the same.
fn in_the_tree(all: &[Definition]) -> String {
    let row = |what: &str, wanted: Kind| {
        let (count, lines) = sums(
            &all.iter()
                .filter(|d| kind(&d.file) == wanted)
                .collect::<Vec<_>>(),
        );
        format!("| {} | {} | {} |\n", what, count, lines)
    };
    let words = "The tree shows the same. A file that stands in `specs/` of a crate itself has to be believed; `Lib.antt` and \
        `Inner.antt` there only list files. No promise names a definition of the folder `specs/Inner`, directly or through another \
        one, and a host test fails if one does. Functions below a call speak of these, and laws about them. If one of them were \
        wrong, no promise would say anything else. Three more places belong to statements beside the promises: the marked cases of \
        document 01 (`cases`), the histories that are computed (`history_cases`), and what is proved beyond demand 3 \
        (`crates/history/specs/Beyond.antt`). Only who wants those statements has to believe them. Lines are counted without \
        comments.";
    format!(
        "\n{}\n\n| where | definitions | lines |\n|---|---|---|\n{}{}{}",
        wrapped(words),
        row("to be believed", Kind::Promised),
        row("`specs/Inner`", Kind::Inner),
        row("beside the promises", Kind::Beside)
    )
}

/// One line for each crate that has something to believe.
fn by_crate(believed: &[&Definition]) -> String {
    let mut rows = String::new();
    for name in crates() {
        let here = format!("{}/", name);
        let of: Vec<&Definition> = believed
            .iter()
            .copied()
            .filter(|d| d.file.starts_with(&here))
            .collect();
        let (count, lines) = sums(&of);
        if count > 0 {
            rows += &format!("| `{}` | {} | {} |\n", name, count, lines);
        }
    }
    let (count, lines) = sums(believed);
    format!(
        "\n## How much it is\n\n| crate | definitions | lines |\n|---|---|---|\n{}| all | {} | {} |\n",
        rows, count, lines
    )
}

/// One section for each file, in reading order.
fn by_file(believed: &[&Definition]) -> String {
    let mut page = "\n## The definitions, in reading order\n".to_string();
    for file in files() {
        let of: Vec<&Definition> = believed
            .iter()
            .copied()
            .filter(|d| d.file == file)
            .collect();
        if of.is_empty() {
            continue;
        }
        let (count, lines) = sums(&of);
        let names: Vec<String> = of.iter().map(|d| format!("`{}`", d.name)).collect();
        let list = format!(
            "{} in {}: {}.",
            counted(count, "definition"),
            counted(lines, "line"),
            names.join(", ")
        );
        page += &format!(
            "\n### crates/{}.antt\n\n{}\n\n{}\n",
            file,
            wrapped(&first_words(&file)),
            wrapped(&list)
        );
    }
    page
}

/// What the definitions name outside `specs/`.
fn outside(named: &BTreeSet<Name>) -> String {
    let types = named.iter().filter(|(home, _)| home.contains("/src/"));
    let types: Vec<String> = types
        .map(|(home, name)| format!("- `{}` of `crates/{}.rt`", name, home))
        .collect();
    let mut page = format!(
        "\n## Types of the code\n\n{}\n\n{}\n",
        wrapped("Some definitions speak of values as the code holds them. These types are declared in the code."),
        types.join("\n")
    );
    page += &format!(
        "\n## Names of the kit\n\n{}\n\n",
        wrapped("The definitions are written in these words of the kit's own libraries: numbers, lists, truth values and equality.")
    );
    let modules: BTreeSet<&str> = named
        .iter()
        .map(|(home, _)| home.as_str())
        .filter(|home| !home.contains('/'))
        .collect();
    for module in modules {
        let names: Vec<String> = named
            .iter()
            .filter(|(home, _)| home == module)
            .map(|(_, name)| format!("`{}`", name))
            .collect();
        page += &format!(
            "{}\n",
            wrapped(&format!("- `{}`: {}", module, names.join(", "))).replace('\n', "\n  ")
        );
    }
    page
}

/// The whole page.
pub fn page() -> String {
    let all = definitions();
    let named = named_by_promises(&all);
    let believed: Vec<&Definition> = all
        .iter()
        .filter(|d| named.contains(&(d.file.clone(), d.name.clone())))
        .collect();
    [
        opening(),
        in_the_tree(&all),
        by_crate(&believed),
        by_file(&believed),
        outside(&named),
    ]
    .concat()
}
