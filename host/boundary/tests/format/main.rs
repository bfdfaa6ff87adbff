//! `docs/FORMAT.md` against the compiled library and the second program. The page is read as it stands: its offsets, widths,
//! values and codes are those that the programs go by, and its worked bytes are what they take and what they answer.

mod agreed;
mod changed;
mod codes;
mod further;
mod index;
mod layout;
mod page;
mod places;
mod replies;
mod sums;
mod values;
mod words;
mod worked;

use page::Page;
use std::fs;
use std::path::Path;

/// What a check comes to: nothing, or a sentence that says where the page and the programs differ.
pub type Checked<T = ()> = Result<T, String>;

/// That two things are the same, which they are said to be of something.
pub fn same<T: PartialEq + std::fmt::Debug>(what: &str, found: T, expected: T) -> Checked {
    if found == expected {
        return Ok(());
    }
    Err(format!(
        "{}: {:02x?} and not {:02x?}",
        what, found, expected
    ))
}

/// The text of the page.
pub fn text() -> String {
    let page = Path::new(env!("CARGO_MANIFEST_DIR")).join("../../docs/FORMAT.md");
    fs::read_to_string(page).expect("the page")
}

/// A check of the page as it stands.
fn assert_held(check: fn(&Page) -> Checked) {
    let text = text();
    assert_eq!(check(&Page::of(&text)), Ok(()));
}

#[test]
fn the_index_has_every_structure_with_its_length() {
    assert_held(index::structures);
}

#[test]
fn the_limits_are_those_of_both_programs() {
    assert_held(index::limits);
}

#[test]
fn the_offsets_in_c_are_those_of_the_c_header() {
    assert_held(index::offsets_in_c);
}

#[test]
fn every_field_is_where_the_page_says() {
    assert_held(places::all);
}

#[test]
fn the_values_of_a_field_are_those_that_both_programs_take() {
    assert_held(values::all);
}

#[test]
fn the_codes_are_those_that_both_programs_take() {
    assert_held(codes::all);
}

#[test]
fn the_order_of_the_numbers_is_that_of_the_second_program() {
    assert_held(codes::order);
}

#[test]
fn the_worked_bytes_are_what_both_programs_take_and_answer() {
    assert_held(worked::all);
}

#[test]
fn the_further_refusals_are_those_that_both_programs_give() {
    assert_held(further::all);
}
