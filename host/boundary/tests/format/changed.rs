//! A page that was changed is noticed: every offset, width, value, code and worked byte of it in turn.

use crate::page::{cells, Page};
use crate::values::{self, STRUCTURES};
use crate::{codes, index, places, replies, text, worked, Checked};

/// The page with another line in the place of one.
fn with_line(lines: &[&str], place: usize, line: &str) -> String {
    let mut changed = lines.to_vec();
    changed[place] = line;
    changed.join("\n")
}

/// The places of the lines below a line of a table that begins so, down to the end of that table.
fn rows_of_tables(lines: &[&str], first: &str) -> Vec<usize> {
    let mut inside = false;
    let mut found = Vec::new();
    for (place, line) in lines.iter().enumerate() {
        if line.starts_with(first) {
            inside = true;
        } else if !line.starts_with('|') {
            inside = false;
        } else if inside && !line.starts_with("|---") {
            found.push(place);
        }
    }
    found
}

/// A line of a table with another cell.
fn with_cell(line: &str, place: usize, cell: &str) -> String {
    let mut cells = cells(line);
    cells[place] = cell;
    format!("| {} |", cells.join(" | "))
}

/// A number and one more.
fn one_more(cell: &str) -> Option<String> {
    let number: u64 = cell.parse().ok()?;
    Some((number + 1).to_string())
}

fn assert_noticed(changed: &str, line: &str, checks: &[fn(&Page) -> Checked]) {
    let page = Page::of(changed);
    let noticed = checks.iter().any(|check| check(&page).is_err());
    assert!(noticed, "this went unnoticed: {}", line);
}

/// Changes a cell of each row of the tables that begin so, and sees to it that this is noticed.
fn assert_cells_noticed(first: &str, cell: usize, checks: &[fn(&Page) -> Checked]) -> usize {
    let text = text();
    let lines: Vec<&str> = text.lines().collect();
    let mut seen = 0;
    for place in rows_of_tables(&lines, first) {
        if let Some(other) = one_more(cells(lines[place])[cell]) {
            let line = with_cell(lines[place], cell, &other);
            assert_noticed(&with_line(&lines, place, &line), &line, checks);
            seen += 1;
        }
    }
    seen
}

const OFFSETS: &str = "| offset | bytes | field | values |";

#[test]
fn a_changed_offset_is_noticed() {
    let seen = assert_cells_noticed(OFFSETS, 0, &[places::all]);
    assert!(seen > 60, "{} offsets", seen);
}

#[test]
fn a_changed_width_is_noticed() {
    let seen = assert_cells_noticed(OFFSETS, 1, &[places::all]);
    assert!(seen > 60, "{} widths", seen);
}

#[test]
fn a_changed_offset_in_c_is_noticed() {
    let first = "| in C | structure | field | offset |";
    assert_eq!(assert_cells_noticed(first, 3, &[index::offsets_in_c]), 11);
}

/// Two fields of the same width that have changed their places leave no gap: only the programs can tell.
#[test]
fn two_fields_that_changed_places_are_noticed() {
    let text = text();
    let lines: Vec<&str> = text.lines().collect();
    let rows = rows_of_tables(&lines, OFFSETS);
    let mut seen = 0;
    for (one, other) in rows
        .iter()
        .flat_map(|one| rows.iter().map(move |other| (*one, *other)))
    {
        let table = &lines[one.min(other)..=one.max(other)];
        let (first, second) = (cells(lines[one]), cells(lines[other]));
        let in_one_table = table.iter().all(|line| line.starts_with('|'));
        if one < other && in_one_table && first[1] == second[1] {
            let (line, next) = (
                with_cell(lines[one], 2, second[2]),
                with_cell(lines[other], 2, first[2]),
            );
            let mut changed = lines.clone();
            (changed[one], changed[other]) = (&line, &next);
            assert_noticed(&changed.join("\n"), &line, &[places::all, values::all]);
            seen += 1;
        }
    }
    assert!(seen > 50, "{} pairs", seen);
}

/// Two fields one after the other, each as wide as the other was.
#[test]
fn two_fields_that_changed_widths_are_noticed() {
    let text = text();
    let lines: Vec<&str> = text.lines().collect();
    let mut seen = 0;
    for pair in rows_of_tables(&lines, OFFSETS).windows(2) {
        let (one, other) = (cells(lines[pair[0]]), cells(lines[pair[1]]));
        let numbers = (one[0].parse::<usize>(), other[1].parse::<usize>());
        if let (true, Ok(begin), Ok(width)) = (pair[1] == pair[0] + 1, numbers.0, numbers.1) {
            if one[1] == other[1] {
                continue;
            }
            let line = with_cell(lines[pair[0]], 1, other[1]);
            let next = with_cell(lines[pair[1]], 0, &(begin + width).to_string());
            let next = with_cell(&next, 1, one[1]);
            let mut changed = lines.clone();
            (changed[pair[0]], changed[pair[1]]) = (&line, &next);
            assert_noticed(&changed.join("\n"), &line, &[places::all]);
            seen += 1;
        }
    }
    assert!(seen > 20, "{} pairs", seen);
}

#[test]
fn changed_bits_are_noticed() {
    let text = text();
    let lines: Vec<&str> = text.lines().collect();
    let rows = rows_of_tables(&lines, "| bits | field | values |");
    assert_eq!(rows.len(), 11);
    for place in rows {
        let (first, last) = cells(lines[place])[0].split_once(" to ").expect("bits");
        let more = |bit: &str| one_more(bit).expect("a bit");
        for bits in [
            (more(first), last.to_string()),
            (first.to_string(), more(last)),
        ] {
            let line = with_cell(lines[place], 0, &format!("{} to {}", bits.0, bits.1));
            assert_noticed(&with_line(&lines, place, &line), &line, &[places::all]);
        }
    }
}

/// What a reply of a kind has in a field: 0 for what is something else, and something else for 0.
#[test]
fn a_changed_cell_of_the_replies_is_noticed() {
    let text = text();
    let lines: Vec<&str> = text.lines().collect();
    let rows = rows_of_tables(&lines, replies::COLUMNS);
    assert_eq!(rows.len(), 7);
    for (place, cell) in rows
        .iter()
        .flat_map(|row| [(*row, 1), (*row, 2), (*row, 3)])
    {
        let other = match cells(lines[place])[cell] {
            "0" => "that of the message",
            _ => "0",
        };
        let line = with_cell(lines[place], cell, other);
        assert_noticed(&with_line(&lines, place, &line), &line, &[worked::all]);
    }
}

#[test]
fn a_changed_code_is_noticed() {
    let seen = assert_cells_noticed("| code | name |", 0, &[codes::all]);
    assert_eq!(seen, 12 + 7 + 2 + 9 + 5 + 4 + 2 + 2 + 3);
}

/// The name in words, and the one in C where there is one.
#[test]
fn a_changed_name_of_a_code_is_noticed() {
    let text = text();
    let lines: Vec<&str> = text.lines().collect();
    let mut seen = 0;
    for place in rows_of_tables(&lines, "| code | name |") {
        let names = cells(lines[place]).into_iter().enumerate().take(3).skip(1);
        for (cell, name) in names.filter(|(_, name)| !name.is_empty()) {
            let line = with_cell(lines[place], cell, &format!("{} X", name));
            assert_noticed(&with_line(&lines, place, &line), &line, &[codes::all]);
            seen += 1;
        }
    }
    assert!(seen > 80, "{} names", seen);
}

/// Each digit of the values of a field that the programs judge: all that stands before the semicolon.
#[test]
fn a_changed_value_is_noticed() {
    let text = text();
    let lines: Vec<&str> = text.lines().collect();
    let mut seen = 0;
    for structure in &STRUCTURES {
        let heading = format!("### {}", structure.heading);
        let begin = lines.iter().position(|line| *line == heading);
        let begin = begin.expect("a section");
        let rows = rows_of_tables(&lines[begin..], OFFSETS);
        let length = Page::of(&text)
            .layout(structure.heading)
            .expect("a table")
            .fields
            .len();
        for place in rows.into_iter().take(length).map(|row| begin + row) {
            let values = cells(lines[place])[3];
            for other in digits_changed(values.split(';').next().unwrap_or(values)) {
                let line = with_cell(lines[place], 3, &other);
                let changed = with_line(&lines, place, &line);
                let noticed = structure.check(&Page::of(&changed)).is_err();
                assert!(
                    noticed,
                    "{}: this went unnoticed: {}",
                    structure.heading, line
                );
                seen += 1;
            }
        }
    }
    assert!(seen > 150, "{} digits", seen);
}

/// A text with each of its digits in turn changed to the next one; a link is left as it is.
fn digits_changed(text: &str) -> Vec<String> {
    let places = text.char_indices().filter(|_| !text.starts_with('['));
    places
        .filter_map(|(place, letter)| {
            let digit = letter.to_digit(10)?;
            let other = ((digit + 1) % 10).to_string();
            Some([&text[..place], &other, &text[place + 1..]].concat())
        })
        .collect()
}

#[test]
fn a_changed_limit_or_length_is_noticed() {
    let text = text();
    let lines: Vec<&str> = text.lines().collect();
    let mut seen = 0;
    for first in ["| limit | value |", "| structure | bytes |"] {
        for place in rows_of_tables(&lines, first) {
            for other in digits_changed(cells(lines[place])[1]) {
                let line = with_cell(lines[place], 1, &other);
                let checks: [fn(&Page) -> Checked; 2] = [index::structures, index::limits];
                assert_noticed(&with_line(&lines, place, &line), &line, &checks);
                seen += 1;
            }
        }
    }
    assert!(seen > 60, "{} digits", seen);
}

/// The places of the lines in blocks of worked bytes.
fn worked_lines(lines: &[&str]) -> Vec<usize> {
    let mut inside = false;
    let mut found = Vec::new();
    for (place, line) in lines.iter().enumerate() {
        if line.starts_with("```") {
            inside = *line == "```bytes";
        } else if inside {
            found.push(place);
        }
    }
    found
}

/// Each digit of each worked line, in the bytes and in the words for them.
#[test]
fn a_changed_worked_byte_is_noticed() {
    let text = text();
    let lines: Vec<&str> = text.lines().collect();
    let mut seen = 0;
    for place in worked_lines(&lines) {
        for line in digits_changed(lines[place]) {
            assert_noticed(&with_line(&lines, place, &line), &line, &[worked::all]);
            seen += 1;
        }
    }
    assert!(seen > 3_000, "{} digits", seen);
}

/// Bytes that stand together but are no field of the page.
#[test]
fn a_space_too_few_between_fields_is_noticed() {
    let text = text();
    let lines: Vec<&str> = text.lines().collect();
    let mut seen = 0;
    for place in worked_lines(&lines) {
        if let Some(gap) = lines[place].find("  ") {
            let line = [&lines[place][..gap], &lines[place][gap + 1..]].concat();
            assert_noticed(&with_line(&lines, place, &line), &line, &[worked::all]);
            seen += 1;
        }
    }
    assert!(seen > 100, "{} lines", seen);
}
