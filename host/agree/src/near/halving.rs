//! "The stamp search shall also return the rows it compared, equal to the steps of a written definition of halving"
//! (document 02, P7).

use super::named;
use crate::case::Case;
use crate::cases::Named;

/// Of lists of at most so many rows every row and every gap is sought.
const SHORT: u64 = 17;

/// At a power of two one turn more is needed than below it. Of these lists, the longest of a table among them, only
/// some searches are made, since each is written with all stamps.
const LONG: [u64; 8] = [31, 32, 33, 63, 64, 65, 511, 512];

pub fn all() -> Vec<Named> {
    let short = (0..=SHORT).flat_map(|rows| (0..=rows).map(move |place| (rows, place)));
    // The ends of the list, and about the row that is compared first.
    let some = |rows| [0, 1, rows / 2, rows / 2 + 1, rows].map(|place| (rows, place));
    let long = LONG.into_iter().flat_map(some);
    short.chain(long).flat_map(searches).collect()
}

/// The stamp of the row at a place, from 1 on. The gaps grow, so that a search that halves the stamps and not the rows
/// would compare others.
fn stamp(place: u64) -> u64 {
    place * (place + 1)
}

/// The search, among so many rows, for the one at a place and for a stamp in the gap behind it. At place 0 there is no
/// row, and behind it the gap below all rows.
fn searches((rows, place): (u64, u64)) -> Vec<Named> {
    let stamps: Vec<u64> = (1..=rows).map(stamp).collect();
    let search = |what: String, sought| {
        let name = format!("halving of {}: {}", rows, what);
        named(name, Case::steps(stamps.clone(), sought))
    };
    let gap = stamp(place) + 1;
    match place {
        0 => vec![search("below all rows".to_string(), gap)],
        _ => vec![
            search(format!("row {}", place), stamp(place)),
            search(format!("behind row {}", place), gap),
        ],
    }
}
