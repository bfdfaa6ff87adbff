//! The papers are true of the tree: what they cite is there, and what is there is cited. And they can be read: nothing in them is
//! too long, and the pages of the claims have one form.

use house::{cited, claim_pages, crates, files, outside_blocks, papers, stands, text, top, Edit};
use std::process::Command;

/// A line of prose has at most so many characters.
const LINE: usize = 120;
/// A cell of a table has at most so many.
const CELL: usize = 400;
/// A stranger reads so many words of README.md in five minutes.
const WORDS: usize = 1_200;
/// The title of the page of claims with the customer's words.
const CUSTOMER: &str = "What the customer wrote";
/// The first line of the table of a page of claims.
const HEAD: &str = "| id | sentence | definition | theorem | test | must-fail edit |";

/// The cells of a line of a table.
fn cells(line: &str) -> Vec<String> {
    let inner = line.trim().trim_start_matches('|').trim_end_matches('|');
    let cells = inner.split('|').map(|cell| cell.trim().to_string());
    cells.collect()
}

/// The rows of the table of a page of claims, without heading and rule.
fn rows(page: &str) -> Vec<Vec<String>> {
    page.lines()
        .filter(|line| line.starts_with("| ") && !line.starts_with("| id "))
        .map(cells)
        .collect()
}

/// The pages of the claims, as texts.
fn pages() -> Vec<String> {
    claim_pages().iter().map(|page| text(page)).collect()
}

/// The rows of all pages of the claims. Their ids are without the mark of a note.
fn claims() -> Vec<Vec<String>> {
    let mut claims: Vec<Vec<String>> = pages().iter().flat_map(|page| rows(page)).collect();
    for row in &mut claims {
        row[0] = row[0].trim_end_matches(" *").to_string();
    }
    claims
}

#[test]
fn what_a_paper_cites_is_there() {
    let mut seen = 0;
    let mut missing = Vec::new();
    for paper in papers() {
        for citation in cited(&paper) {
            match stands(&citation) {
                Some(true) => seen += 1,
                Some(false) => missing.push(format!("{} cites `{}`", paper, citation)),
                None => (),
            }
        }
    }
    assert!(missing.is_empty(), "not there: {:#?}", missing);
    assert!(seen > 20, "only {} citations were understood", seen);
}

#[test]
fn a_citation_of_nothing_is_noticed() {
    for wrong in [
        "wire::no_such_function",
        "wire/proofs/Numbers.no_such_law",
        "wire/proofs/NoSuchFile.read_back",
        "wire/must-fail/no_such_edit",
        "rows/more-must-fail/no_such_edit",
        "table::header::no_such_function",
        "table::no_such_module::read",
        "host/no/such/file",
        "tools/no_such_tool --with words",
    ] {
        assert_eq!(stands(wrong), Some(false), "{}", wrong);
    }
    assert_eq!(stands("wire/proofs/Numbers.read_back"), Some(true));
    assert_eq!(stands("a word"), None);
}

/// Whether a map of crates has a row for this one.
fn is_on_the_map(map: &str, name: &str) -> bool {
    let row = format!("| `{}` |", name);
    map.lines().any(|line| line.starts_with(&row))
}

#[test]
fn every_crate_is_on_the_map_of_the_architecture() {
    let map = text("docs/ARCHITECTURE.md");
    for name in crates() {
        let there = is_on_the_map(&map, &name);
        assert!(there, "docs/ARCHITECTURE.md has no row for {}", name);
    }
}

#[test]
fn a_crate_that_is_not_on_the_map_is_noticed() {
    let map =
        "`rows` stands on\n\n| crate | what |\n|---|---|\n| `wire` | numbers; `table` uses it |";
    assert!(is_on_the_map(map, "wire"));
    assert!(!is_on_the_map(map, "table"));
    assert!(!is_on_the_map(map, "rows"));
}

/// The lines of a paper that are too long, outside its tables and its code.
fn long_lines(paper: &str) -> Vec<&str> {
    let lines = outside_blocks(paper).into_iter();
    let prose = lines.filter(|line| !line.starts_with('|') && !line.starts_with("    "));
    prose.filter(|line| line.chars().count() > LINE).collect()
}

/// The cells of a paper's tables that are too long.
fn long_cells(paper: &str) -> Vec<String> {
    let lines = outside_blocks(paper).into_iter();
    let cells = lines.filter(|line| line.starts_with('|')).flat_map(cells);
    cells.filter(|cell| cell.chars().count() > CELL).collect()
}

#[test]
fn no_line_of_a_paper_is_too_long() {
    let mut long = Vec::new();
    for paper in papers() {
        let text = text(&paper);
        let lines = long_lines(&text).into_iter();
        long.extend(lines.map(|line| format!("{}: {}", paper, line)));
    }
    assert!(long.is_empty(), "{:#?}", long);
}

#[test]
fn no_cell_of_a_paper_is_too_long() {
    let mut long = Vec::new();
    for paper in papers() {
        let cells = long_cells(&text(&paper)).into_iter();
        long.extend(cells.map(|cell| format!("{}: {}", paper, cell)));
    }
    assert!(long.is_empty(), "{:#?}", long);
}

#[test]
fn a_long_line_and_a_long_cell_are_noticed() {
    let (line, cell) = ("é".repeat(LINE), "é".repeat(CELL));
    let more = format!("{}x", line);
    let paper = format!(
        "{0}\n\n    {1}\n```\n{1}\n```\n| a | {2} |",
        line, more, cell
    );
    assert!(long_lines(&paper).is_empty() && long_cells(&paper).is_empty());
    assert_eq!(long_lines(&format!("{}\n{}", paper, more)), [more]);
    let longer = paper.replace(&cell, &format!("{}x", cell));
    assert_eq!(long_cells(&longer), [format!("{}x", cell)]);
    assert!(long_lines(&longer).is_empty());
}

fn words(paper: &str) -> usize {
    paper.split_whitespace().count()
}

#[test]
fn the_readme_is_read_in_five_minutes() {
    let words = words(&text("README.md"));
    assert!(words <= WORDS, "README.md has {} words", words);
}

#[test]
fn a_word_too_many_is_noticed() {
    let paper = "one two\n\n| three\n".repeat(WORDS / 4);
    assert_eq!(words(&paper), WORDS);
    assert!(words(&(paper + " more")) > WORDS);
}

#[test]
fn the_overview_shows_every_crate() {
    let done = Command::new(top().join("tools/overview")).output().unwrap();
    let printed = String::from_utf8(done.stdout).unwrap();
    assert!(done.status.success(), "{}", printed);
    assert!(done.stderr.is_empty(), "{}", printed);
    for name in crates() {
        let heading = printed.lines().any(|line| line == name);
        assert!(
            heading,
            "tools/overview says nothing of {}: {}",
            name, printed
        );
    }
    assert!(printed.contains("- u32_at(s: &[u8]"), "{}", printed);
    assert!(
        printed.contains("- sprondilu_fresh(table: &mut [u8]"),
        "{}",
        printed
    );
    assert!(printed.contains("claims: "), "{}", printed);
}

#[test]
fn every_must_fail_edit_is_cited_by_a_claim() {
    let cited: Vec<String> = claim_pages().iter().flat_map(|page| cited(page)).collect();
    for file in files("crates", ".edit") {
        let name = file
            .trim_start_matches("crates/")
            .trim_end_matches(".edit")
            .to_string();
        assert!(cited.contains(&name), "no claim cites {}", name);
    }
}

/// Crates whose check takes few seconds, as `docs/BENCHMARKS.md` has it. An edit costs a check of its crate.
const QUICK: [&str; 6] = [
    "rules",
    "history",
    "history_cases",
    "quorums",
    "cases",
    "group",
];

#[test]
fn the_gate_has_time_for_two_edits_of_a_crate_that_is_not_quick() {
    for name in crates() {
        let tried = files(&format!("crates/{}/must-fail", name), ".edit").len();
        let quick = QUICK.contains(&name.as_str());
        assert!(
            quick || tried <= 2,
            "{} has {} edits in the gate",
            name,
            tried
        );
    }
}

#[test]
fn an_edit_for_each_public_call_is_tried_in_the_gate() {
    let calls: Vec<Vec<String>> = claims()
        .into_iter()
        .filter(|row| row[0].starts_with("CALL-"))
        .collect();
    assert_eq!(calls.len(), 7);
    for row in calls {
        assert!(row[5].contains("/must-fail/"), "{}: {}", row[0], row[5]);
    }
}

/// A proof that is changed fails whatever its statement says.
#[test]
fn an_edit_changes_a_definition_or_a_program() {
    for file in files("crates", ".edit") {
        let edit = text(&file);
        let changed = Edit::of(&edit).file;
        let said = changed.starts_with("specs/") || changed.starts_with("src/");
        assert!(said, "{} changes {}", file, changed);
    }
}

/// The gate applies the others, and would say so.
#[test]
fn an_edit_that_the_gate_does_not_try_still_fits_its_source() {
    let mut seen = 0;
    for file in files("crates", ".edit") {
        let (folder, _) = match file.split_once("/more-must-fail/") {
            Some(parts) => parts,
            None => continue,
        };
        Edit::of(&text(&file)).fits(folder);
        seen += 1;
    }
    assert!(seen > 20, "only {} such edits were found", seen);
}

/// Whether a cell of a claim says of itself, or of a part of it, that nothing fills it.
fn says_open(cell: &str) -> bool {
    let parts = cell.split(&[';', ','][..]);
    let last_words = parts.map(|part| part.rsplit(": ").next().unwrap_or(part).trim());
    last_words.into_iter().any(|words| words == "open")
}

#[test]
fn no_claim_is_open() {
    for row in claims() {
        let open: Vec<&String> = row.iter().filter(|cell| says_open(cell)).collect();
        assert!(open.is_empty(), "{}: {:?}", row[0], open);
    }
}

#[test]
fn an_open_cell_would_be_noticed() {
    for cell in [
        "open",
        "`a/b`; the code: open",
        "of the answer: open; of the merge: `c`",
    ] {
        assert!(says_open(cell), "{}", cell);
    }
    assert!(!says_open(
        "open rows are checked; opened by `let .. else`: here"
    ));
}

#[test]
fn every_claim_has_all_its_cells() {
    let rows = claims();
    assert!(rows.len() > 100, "only {} rows were found", rows.len());
    for row in &rows {
        assert_eq!(row.len(), 6, "{:?}", row);
        assert!(row.iter().all(|cell| !cell.is_empty()), "{:?}", row);
    }
    let mut ids: Vec<&String> = rows.iter().map(|row| &row[0]).collect();
    ids.sort();
    for pair in ids.windows(2) {
        assert_ne!(pair[0], pair[1], "two claims have one id");
    }
}

/// The title of a page.
fn title(page: &str) -> &str {
    let first = page.lines().next().unwrap_or("");
    first.strip_prefix("# ").unwrap_or("")
}

/// Whether a page of claims has a title and one table, with the head that all have.
fn is_a_title_and_one_table(page: &str) -> bool {
    let heads = page.lines().filter(|line| line.starts_with("| id "));
    !title(page).is_empty() && heads.eq([HEAD])
}

#[test]
fn every_page_of_claims_is_a_title_and_one_table() {
    for page in claim_pages() {
        assert!(is_a_title_and_one_table(&text(&page)), "{}", page);
    }
}

#[test]
fn a_page_of_another_form_is_noticed() {
    let page = format!("# Title\n\nWords.\n\n{}\n|---|\n| A-1 |\n", HEAD);
    assert!(is_a_title_and_one_table(&page));
    for other in [
        page.replace("# Title", "## Title"),
        page.replace("| test ", ""),
        page.replace(HEAD, ""),
        page.replace("Words.", HEAD),
    ] {
        assert!(!is_a_title_and_one_table(&other), "{}", other);
    }
}

/// The ids of the rows of a page that are marked, since they have a note.
fn marked(page: &str) -> Vec<String> {
    let rows = rows(page);
    let marked = rows.iter().filter_map(|row| row[0].strip_suffix(" *"));
    marked.map(str::to_string).collect()
}

/// The ids with which the notes of a page begin.
fn noted(page: &str) -> Vec<String> {
    let notes = page.split("\n## Notes\n").nth(1).unwrap_or("");
    let begun = notes.lines().filter_map(|line| line.strip_prefix("**"));
    let ids = begun.filter_map(|line| line.split_once(".**"));
    ids.map(|(id, _)| id.to_string()).collect()
}

#[test]
fn every_row_that_is_marked_has_a_note_and_every_note_a_row() {
    let mut seen = 0;
    for page in claim_pages() {
        let text = text(&page);
        assert_eq!(marked(&text), noted(&text), "{}", page);
        seen += noted(&text).len();
    }
    assert!(seen > 50, "only {} notes were found", seen);
}

#[test]
fn a_row_without_its_note_and_a_note_without_its_row_are_noticed() {
    let page = "| A-1.1 * | s |\n| A-2 | s |\n\n## Notes\n\n**A-1.1.** One.\n\nMore.\n";
    assert_eq!(marked(page), ["A-1.1"]);
    assert_eq!(noted(page), ["A-1.1"]);
    for (old, new) in [
        ("| A-1.1 * |", "| A-1.1 |"),
        ("| A-2 |", "| A-2 * |"),
        ("**A-1.1.**", "**A-2.**"),
        ("**A-1.1.** One.", "One."),
        ("More.", "**A-2.** Two."),
        ("## Notes", "## Remarks"),
    ] {
        let changed = page.replace(old, new);
        assert_ne!(marked(&changed), noted(&changed), "{}", new);
    }
}

/// The letters with which the ids of a page begin, each once.
fn letters(page: &str) -> Vec<String> {
    let mut found = Vec::new();
    for row in rows(page) {
        let of_this: String = row[0]
            .chars()
            .take_while(char::is_ascii_uppercase)
            .collect();
        if !found.contains(&of_this) {
            found.push(of_this);
        }
    }
    found
}

/// What the table of the index says of pages, which have names and texts: a line for each, and the sum last.
fn told(pages: &[(String, String)]) -> Vec<String> {
    let mut lines = Vec::new();
    let mut sum = 0;
    for (name, page) in pages {
        let (ids, rows) = (letters(page).join(", "), rows(page).len());
        lines.push(format!(
            "| [{0}]({0}) | {1} | {2} | {3} |",
            name,
            title(page),
            ids,
            rows
        ));
        sum += rows;
    }
    lines.sort();
    lines.push(format!(
        "| all pages | every chapter | every id | {} |",
        sum
    ));
    lines
}

/// What the table of an index says, without heading and rule, in the order of `told`: the sum is the last line of both.
fn indexed(index: &str) -> Vec<String> {
    let lines = index.lines().filter(|line| line.starts_with("| "));
    let mut lines: Vec<String> = lines.skip(1).map(str::to_string).collect();
    let sum = lines.pop();
    lines.sort();
    lines.extend(sum);
    lines
}

#[test]
fn the_index_of_the_claims_has_every_page_and_counts_its_rows() {
    let names = claim_pages().into_iter();
    let pages: Vec<(String, String)> = names
        .map(|path| (path.replace("docs/CLAIMS/", ""), text(&path)))
        .collect();
    let (found, wanted) = (indexed(&text("docs/CLAIMS/README.md")), told(&pages));
    let lacking: Vec<&String> = wanted.iter().filter(|line| !found.contains(line)).collect();
    assert_eq!(found, wanted, "the index lacks {:#?}", lacking);
}

#[test]
fn an_index_that_is_wrong_is_noticed() {
    let page = |title: &str, rows: &str| format!("# {}\n\n| id | s |\n|---|---|\n{}", title, rows);
    let pages = [
        ("b.md".to_string(), page("Second", "| B-1 | s |\n")),
        (
            "a.md".to_string(),
            page("First", "| A-1 * | s |\n| M1 | s |\n| A-2 | s |\n"),
        ),
    ];
    let index = "# Index\n\n| page | chapter | ids | rows |\n|---|---|---|---|\n\
        | [b.md](b.md) | Second | B | 1 |\n| [a.md](a.md) | First | A, M | 3 |\n\
        | all pages | every chapter | every id | 4 |\n";
    assert_eq!(indexed(index), told(&pages));
    for (old, new) in [
        ("| B | 1 |", "| B | 2 |"),
        ("| every id | 4 |", "| every id | 5 |"),
        ("A, M", "A"),
        ("First", "Third"),
        ("(a.md)", "(c.md)"),
        ("| [b.md](b.md) | Second | B | 1 |\n", ""),
    ] {
        assert_ne!(indexed(&index.replace(old, new)), told(&pages), "{}", new);
    }
}

/// The words that a definition's comments quote, cut where `..` leaves some out.
fn quoted(source: &str) -> Vec<String> {
    source
        .lines()
        .filter_map(|line| line.split_once("--"))
        .flat_map(|(_, comment)| comment.split('"').skip(1).step_by(2))
        .flat_map(|quote| quote.split(".."))
        .map(|words| words.trim().to_string())
        .filter(|words| !words.is_empty())
        .collect()
}

/// The sentences of the pages of claims whose titles begin so, one after the other.
fn sentences(pages: &[String], title_begins: &str) -> String {
    let chosen = pages
        .iter()
        .filter(|page| title(page).starts_with(title_begins));
    let rows = chosen.flat_map(|page| rows(page));
    let sentences: Vec<String> = rows.map(|row| row[1].clone()).collect();
    sentences.join(" ")
}

/// What a definition may quote: documents 01 and 02 and the demands as the claims have them, sentence after sentence.
fn quotable() -> String {
    let pages = pages();
    let documents = ["01, ", "02, ", CUSTOMER];
    documents.map(|begins| sentences(&pages, begins)).join("\n")
}

/// What a paper quotes, line by line behind `>`, as words with one space between them.
fn quoted_lines(paper: &str) -> String {
    let lines = paper.lines().filter_map(|line| line.strip_prefix('>'));
    let words: Vec<&str> = lines.flat_map(str::split_whitespace).collect();
    words.join(" ")
}

/// Some words from where two texts begin to differ, of each of them.
fn first_difference(came: &str, claimed: &str) -> Option<(String, String)> {
    let came: Vec<&str> = came.split(' ').collect();
    let claimed: Vec<&str> = claimed.split(' ').collect();
    let longest = came.len().max(claimed.len());
    let place = (0..longest).find(|k| came.get(*k) != claimed.get(*k))?;
    let from = |words: &[&str]| words[place.min(words.len())..].join(" ");
    let some = |text: String| text.chars().take(80).collect();
    Some((some(from(&came)), some(from(&claimed))))
}

#[test]
fn the_claims_quote_the_customer_word_for_word() {
    let came = quoted_lines(&text("docs/DEMANDS.md"));
    let claimed = sentences(&pages(), CUSTOMER);
    assert!(came.split(' ').count() > 350, "{}", came);
    assert_eq!(first_difference(&came, &claimed), None);
}

#[test]
fn a_word_of_the_customer_that_was_changed_is_noticed() {
    let came = quoted_lines(&text("docs/DEMANDS.md"));
    let claims = text("docs/CLAIMS/demands.md");
    for (word, other) in [
        (
            "A refused call changes no table;",
            "A refused call changes nothing;",
        ),
        ("| a full table says so. |", "| a full table |"),
        ("| stands unchanged in", "| stands in"),
    ] {
        assert_eq!(claims.matches(word).count(), 1, "{}", word);
        let claimed = sentences(&[claims.replace(word, other)], CUSTOMER);
        assert!(first_difference(&came, &claimed).is_some(), "{}", other);
    }
    assert!(first_difference(&came, &format!("{} more", came)).is_some());
}

#[test]
fn a_definition_quotes_only_words_of_01_of_02_and_of_the_demands() {
    let sentences = quotable();
    let mut seen = 0;
    for file in files("crates", ".antt") {
        if !file.contains("/specs/") {
            continue;
        }
        for words in quoted(&text(&file)) {
            assert!(
                sentences.contains(&words),
                "{} quotes \"{}\", which nobody wrote",
                file,
                words
            );
            seen += 1;
        }
    }
    assert!(seen > 100, "only {} quotes were found", seen);
}

#[test]
fn what_the_claims_say_beside_01_02_and_the_demands_is_no_part_of_them() {
    let sentences = quotable();
    assert!(sentences.contains("Committed: outcome 3."));
    assert!(sentences.contains("Any bytes may arrive"));
    assert!(!sentences.contains("Clash is symmetric"));
    assert!(!sentences.contains("A part is cleared"));
    assert!(!sentences.contains("keep the seven rules, each as its row"));
}

#[test]
fn a_quote_is_cut_where_words_are_left_out() {
    let source = "-- of \"one .. and two\", \"three\"\nname = \"four\"\n  x : A  -- \"five\"";
    assert_eq!(quoted(source), ["one", "and two", "three", "five"]);
}

/// The numbers of the decisions, in the order in which they stand on their page.
fn decisions(page: &str) -> Vec<&str> {
    page.lines()
        .filter(|line| line.starts_with("**D"))
        .filter_map(|line| line[2..].split('.').next())
        .collect()
}

#[test]
fn the_decisions_are_numbered_once() {
    let page = text("docs/DECISIONS.md");
    let numbers = decisions(&page);
    assert!(numbers.len() > 150, "only {} were found", numbers.len());
    for (place, number) in numbers.iter().enumerate() {
        assert_eq!(*number, format!("D{}", place + 1));
    }
}

/// The decisions that stand under no subject of the index.
fn under_no_subject(page: &str) -> Vec<&str> {
    let index = page
        .split("\n## ")
        .find(|part| part.starts_with("Index by subject"));
    let named: Vec<&str> = index.unwrap_or("").split_whitespace().collect();
    let numbers = decisions(page).into_iter();
    numbers.filter(|number| !named.contains(number)).collect()
}

#[test]
fn every_decision_is_in_the_index() {
    assert_eq!(under_no_subject(&text("docs/DECISIONS.md")), [""; 0]);
}

#[test]
fn a_decision_that_is_not_in_the_index_is_noticed() {
    let page = "# Decisions\n\n## Index by subject\n\n- **Gate**: D1 one\n\n## Gate\n\n**D1. One.**\n\n**D2. Two.**\n";
    assert_eq!(under_no_subject(page), ["D2"]);
}

/// The constants of the C header: the words of the comment above each, its name and its value.
fn constants(header: &str) -> Vec<(String, String, String)> {
    let mut found = Vec::new();
    let mut comment = Vec::new();
    for line in header.lines() {
        if line.starts_with("/*") {
            comment.clear();
        }
        let words: Vec<&str> = line.split_whitespace().collect();
        match words[..] {
            ["#define", name, value] => {
                found.push((comment.join(" "), name.to_string(), value.to_string()))
            }
            _ => comment.extend(words.into_iter().filter(|w| !["/*", "*", "*/"].contains(w))),
        }
    }
    found
}

#[test]
fn the_header_has_each_number_in_the_words_of_01() {
    let constants = constants(&text("include/sprondilu.h"));
    let mut seen = 0;
    for row in claims() {
        let number = match row[0].strip_prefix("NUM-").map(str::parse::<u8>) {
            Some(Ok(number)) => number,
            _ => continue,
        };
        let (name, _) = row[1]
            .split_once(':')
            .expect("a name before the circumstances");
        let name = format!("SPRONDILU_{}", name.to_uppercase().replace(' ', "_"));
        let wanted = (row[1].clone(), name, number.to_string());
        assert!(
            constants.contains(&wanted),
            "the C header lacks {:?}",
            wanted
        );
        seen += 1;
    }
    assert_eq!(seen, 12);
}
