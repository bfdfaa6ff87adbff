//! Writes the page that says what a reader must believe, from the tree.

use house::trust::page::{page, PAGE};
use std::fs;

fn main() {
    let written = page();
    fs::write(house::top().join(PAGE), &written)
        .unwrap_or_else(|error| panic!("{}: {}", PAGE, error));
    println!("{}: {} lines", PAGE, written.lines().count());
}
