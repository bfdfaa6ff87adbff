//! `merge`: the table with which a view begins, from the table files of f+1 boxes.

use crate::ends::Stop;
use crate::files::Over;
use crate::image::{Header, Table};
use crate::json::Json;
use crate::reasons::merge::{reason, Named};
use crate::words::{usage, Words};
use crate::{calls, files, names};
use std::path::{Path, PathBuf};

pub fn run(words: &Words) -> Result<(String, Json), Stop> {
    let view = words.number(
        "--view",
        u64::from(u32::MAX),
        "a number from 0 to 4294967295",
    )? as u32;
    let out = words
        .path("--out")
        .ok_or_else(|| usage("--out is missing"))?;
    let paths: Vec<PathBuf> = words.plain.iter().map(PathBuf::from).collect();
    if paths.is_empty() {
        return Err(usage("the table files of f+1 boxes are missing"));
    }
    files::may_create(out, Over::Nothing)?;
    let (run, tables) = read_all(&paths)?;
    let image = calls::merge(&run, view)
        .map_err(|number| super::refused(number, "the merge", reason(number, &tables, view)))?;
    files::create(out, &image, Over::Nothing)?;
    Ok(told(out, &image))
}

/// The images laid end to end, and the tables that they are. Each file has to begin with one: two halves of an image would
/// make a whole one.
fn read_all(paths: &[PathBuf]) -> Result<(Vec<u8>, Vec<Named>), Stop> {
    let mut run = Vec::new();
    let mut tables = Vec::new();
    for path in paths {
        let image = super::settled_image(path)?;
        tables.push(Named {
            name: path.display().to_string(),
            table: Table::of(&image),
        });
        run.extend(image);
    }
    Ok((run, tables))
}

fn told(out: &Path, image: &[u8]) -> (String, Json) {
    let header = Header::at(image);
    let text = format!(
        "{}: the table with which view {} begins: {}, {} bytes\n\
         For view {} send this merge and no other: sprondilu message start-view {} {} --out FILE\n",
        out.display(),
        header.view,
        names::how_many(header.rows as usize, "row"),
        image.len(),
        header.view,
        header.view,
        out.display()
    );
    let mut fields = super::done_json();
    fields.push(super::file_json(out));
    fields.push(("header", header.json()));
    (text, Json::Object(fields))
}
