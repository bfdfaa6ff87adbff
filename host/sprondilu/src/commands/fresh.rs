//! `fresh`: the table of a box that was never used.

use crate::ends::Stop;
use crate::files::Over;
use crate::json::Json;
use crate::words::Words;
use crate::{calls, files, names};

pub fn run(words: &Words) -> Result<(String, Json), Stop> {
    let [path] = words.files(["the file to write"])?;
    let n = words.n()?;
    let box_number = words.number("--box", 255, "0 to n-1")? as u8;
    let file = path.display().to_string();
    let image = calls::fresh(n, box_number)
        .map_err(|number| super::refused(number, &file, why(n, box_number)))?;
    // A table that is there may hold entries: it is never written over.
    files::create(&path, &image, Over::Nothing)?;
    let length = image.len();
    let text = format!(
        "{}: fresh table of box {} of {}, {} bytes\n",
        file, box_number, n, length
    );
    let mut fields = super::done_json();
    fields.push(super::file_json(&path));
    fields.push(("n", Json::from(n)));
    fields.push(("box", Json::from(box_number)));
    fields.push(("length", Json::from(length)));
    Ok((text, Json::Object(fields)))
}

fn why(n: u8, box_number: u8) -> String {
    match n {
        3 | 5 | 7 => format!(
            "the boxes of a group of {} are 0 to {}, and this is {}",
            n,
            n - 1,
            box_number
        ),
        _ => names::bad_n(n),
    }
}
