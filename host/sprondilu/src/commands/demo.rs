//! `demo`: groups played and explained.

use crate::demo;
use crate::ends::Stop;
use crate::files;
use crate::json::Json;
use crate::words::Words;
use std::fs;
use std::path::Path;

pub fn run(words: &Words) -> Result<(String, Json), Stop> {
    words.no_more_than(0)?;
    let played = demo::play()?;
    let mut text = played.text;
    if let Some(folder) = words.path("--keep") {
        keep(folder, &played.files)?;
        text.push_str(&format!("\nIts files are in {}.\n", folder.display()));
    }
    Ok((text, Json::Null))
}

/// Leaves the files in a folder of their own, which must not be there yet.
fn keep(folder: &Path, kept: &[(String, Vec<u8>)]) -> Result<(), Stop> {
    make(folder)?;
    for group in ["three", "five"] {
        make(&folder.join(group))?;
    }
    for (name, bytes) in kept {
        files::create(&folder.join(name), bytes, files::Over::Nothing)?;
    }
    Ok(())
}

fn make(folder: &Path) -> Result<(), Stop> {
    fs::create_dir(folder).map_err(|error| {
        Stop::Trouble(format!(
            "cannot make the folder {}: {}",
            folder.display(),
            error
        ))
    })
}
