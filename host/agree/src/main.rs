//! Writes a crate of statements: in each of many cases the definitions of `rules`, and that of halving in `rows`,
//! compute to what the second program answers. The checker decides each one by computation, so two renderings of
//! document 01, and of what document 02 asks of the search, that know nothing of each other are held against each other
//! before any byte is proved.
//!
//! `agree CRATES FOLDER SEED` reads the names of the definitions in the folder CRATES and writes the crate;
//! `tools/agree` writes it and has it checked. Without a seed the cases near the boundaries are written alone, which
//! `tools/noticed` holds against changed definitions.

mod case;
mod cases;
mod group;
mod near;
mod parts;
mod plain;
mod print;
mod replies;
mod scattered;

use cases::Named;
use std::path::{Path, PathBuf};
use std::{env, fs, io, process};

/// What the statements name that is no definition by clauses, and the words that they are written in.
const HEADER: &str = include_str!("header.txt");
const WORDS: &str = include_str!("words.txt");

fn main() {
    let words: Vec<String> = env::args().skip(1).collect();
    let (crates, folder, seed) = match &words[..] {
        [crates, folder] => (crates, folder, Ok(None)),
        [crates, folder, seed] => (crates, folder, seed.parse().map(Some)),
        _ => refuse("name the folder of the crates, the folder to write to and perhaps a seed"),
    };
    match seed {
        Ok(seed) => match write_crate(Path::new(crates), Path::new(folder), seed) {
            Ok(done) => println!("agree: {}", done),
            Err(error) => refuse(&error),
        },
        Err(error) => refuse(&format!("the seed is no number: {}", error)),
    }
}

fn refuse(why: &str) -> ! {
    eprintln!("agree: {}", why);
    process::exit(2);
}

fn write_crate(crates: &Path, folder: &Path, seed: Option<u64>) -> Result<String, String> {
    let definitions = definitions(crates)?;
    let cases = cases::all(seed);
    let files = [
        (
            "src",
            "lib.rt",
            "// Statements alone.\n#![tactic(auto)]\n".to_string(),
        ),
        ("specs", "Lib.antt", String::new()),
        ("proofs", "Lib.antt", "pub mod Agree\n".to_string()),
        ("proofs", "Agree.antt", statements(&definitions, &cases)),
    ];
    for (part, name, text) in files {
        let place = folder.join(part);
        fs::create_dir_all(&place).map_err(|error| at(&place, error))?;
        let file = place.join(name);
        fs::write(&file, text).map_err(|error| at(&file, error))?;
    }
    Ok(cases::summary(&cases))
}

/// An error with the place where it came up.
fn at(place: &Path, error: io::Error) -> String {
    format!("{}: {}", place.display(), error)
}

/// Each file of the definitions, by the name that its module has, with the names in it that have to be unfolded.
fn definitions(crates: &Path) -> Result<Vec<(String, Vec<String>)>, String> {
    let specs = crates.join("rules/specs");
    let files = files_in(&specs).map_err(|error| at(&specs, error))?;
    let files = files.into_iter().map(|file| ("rules", file));
    // Of `rows` this is what the second program has too. The rest of its definitions is about bytes.
    let halving = ("rows", crates.join("rows/specs/Halving.antt"));
    let mut found = Vec::new();
    for (name, file) in files.chain([halving]) {
        let stem = file.file_stem().unwrap_or_default().to_string_lossy();
        let text = fs::read_to_string(&file).map_err(|error| at(&file, error))?;
        found.push((format!("Rattle.{}.specs.{}", name, stem), unfoldable(&text)));
    }
    found.retain(|(_, names)| !names.is_empty());
    Ok(found)
}

/// The files that stand in a folder itself. What stands in a folder below it, no answer is computed by.
fn files_in(specs: &Path) -> io::Result<Vec<PathBuf>> {
    let mut found = Vec::new();
    for entry in fs::read_dir(specs)? {
        found.push(entry?.path());
    }
    found.retain(|path| !path.is_dir());
    found.sort();
    Ok(found)
}

fn unfoldable(text: &str) -> Vec<String> {
    text.lines()
        .filter_map(|line| line.trim_start().strip_prefix("unfoldable pub "))
        .filter_map(|line| line.split(' ').next())
        .map(str::to_string)
        .collect()
}

/// So many cases stand in one statement: what each statement costs by itself is shared.
const TOGETHER: usize = 40;

/// One statement for several cases, each of which is computed with everything unfolded and proved on a line of its own, behind
/// which its name stands: where the checker refuses a line, that case is the one that disagrees.
fn statements(definitions: &[(String, Vec<String>)], cases: &[Named]) -> String {
    let mut text = HEADER.to_string();
    let mut unfolded = String::new();
    for (module, names) in definitions {
        text += &format!("use {}.{{{}}}\n", module, names.join(", "));
        unfolded += &format!(" {}", names.join(" "));
    }
    text += &print::models();
    text += WORDS;
    for (place, some) in cases.chunks(TOGETHER).enumerate() {
        text += &together(place, some, &unfolded);
    }
    text
}

fn together(place: usize, cases: &[Named], unfolded: &str) -> String {
    let statements: Vec<String> = cases
        .iter()
        .map(|(_, case)| format!("({})", print::statement(case)))
        .collect();
    let proofs: String = cases
        .iter()
        .map(|(name, case)| format!("    , {} -- {}\n", print::proof(case), name))
        .collect();
    format!(
        "\ncases_{place} :\n    {statements}\nunfolding{unfolded}\ncases_{place} =\n    ({proofs}    )\n",
        place = place,
        statements = statements.join("\n    × "),
        unfolded = unfolded,
        proofs = proofs.trim_start_matches("    ,"),
    )
}
