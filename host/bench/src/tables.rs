//! All that is measured, printed as tables in Markdown.

use crate::times::Medians;
use crate::{instructions, stack, works, Named, Section, Side, EXPERT, LIBRARY};
use std::path::Path;

pub const ROUNDS: usize = 101;

/// How long a line of the page may be.
const LINE: usize = 118;

/// On a machine that does nothing else it is less.
const STEADY_SPREAD: f64 = 1.25;

pub fn print_all(sections: &[Section]) {
    for section in sections {
        println!("### {}\n", section.heading);
        for work in section.works {
            println!("{}", described(work));
        }
        println!();
        print_row(&headings(&section.works[0]));
        print_rule(&headings(&section.works[0]));
        let counted: Vec<Counted> = section.works.iter().map(print_figures).collect();
        println!();
        if section.works[0].unit == "rows" {
            print_growth(section.works, &counted);
        }
    }
    print_stack();
}

/// Instructions of each side of a work, for the least size and for the greatest.
type Counted = [Vec<f64>; 2];

/// What a work is, as an item of a list whose lines fit a page.
fn described(work: &Named) -> String {
    let described = format!("- {}: {}", work.name, work.about);
    let mut lines: Vec<String> = Vec::new();
    for word in described.split_whitespace() {
        match lines.last_mut() {
            Some(line) if line.len() + 1 + word.len() <= LINE => {
                line.push(' ');
                line.push_str(word);
            }
            Some(_) => lines.push(format!("  {}", word)),
            None => lines.push(word.into()),
        }
    }
    lines.join("\n")
}

/// A measure is followed by its ratios.
fn headings(work: &Named) -> Vec<String> {
    let mut cells = vec!["work".into(), work.unit.into(), "bytes".into()];
    for measure in ["ns", "instructions"] {
        let own = |side: &Side| format!("{} {}", side.name, measure);
        let ratio = |side: &Side| format!("{}: library / {}", measure, side.name);
        cells.extend(work.sides.iter().map(own));
        cells.extend(work.sides[1..].iter().map(ratio));
    }
    cells
}

/// Prints the lines of a work.
fn print_figures(work: &Named) -> Counted {
    let [first, _, last] = work.sizes.map(|size| {
        eprintln!("bench: {} of {} {}", work.name, size, work.unit);
        let medians = (work.medians)(work.sides, size, ROUNDS);
        let counted = |side| instructions::for_one(work, side, size) as f64;
        let counted: Vec<f64> = work.sides.iter().map(counted).collect();
        print_row(&figures(work, size, medians, counted.clone()));
        counted
    });
    [first, last]
}

fn figures(work: &Named, size: usize, medians: Medians, counted: Vec<f64>) -> Vec<String> {
    let name = name_with_spread(work.name, medians.spread);
    let mut cells = vec![name, size.to_string(), grouped(medians.bytes)];
    for measured in [medians.nanoseconds, counted] {
        let ratio = |other: &f64| format!("{:.2}", measured[0] / other);
        cells.extend(
            measured
                .iter()
                .map(|figure| grouped(figure.round() as usize)),
        );
        cells.extend(measured[1..].iter().map(ratio));
    }
    cells
}

/// How the instructions of the library and of the expert grow with the rows, in a table of its own.
fn print_growth(works: &[Named], counted: &[Counted]) {
    let grown = |side: &&Side| [LIBRARY.name, EXPERT.name].contains(&side.name);
    let sides = || works[0].sides.iter().filter(grown);
    let mut headings: Vec<String> = vec!["work".into(), "rows".into()];
    headings.extend(sides().map(|side| format!("growth of {}", side.name)));
    print_row(&headings);
    print_rule(&headings);
    for (work, [least, greatest]) in works.iter().zip(counted) {
        let (from, to) = (work.sizes[0], work.sizes[work.sizes.len() - 1]);
        let mut cells = vec![work.name.into(), format!("{} to {}", from, to)];
        for (place, side) in work.sides.iter().enumerate() {
            if grown(&side) {
                let power = growth((from, to), (least[place], greatest[place]));
                cells.push(format!("{:.2}", power));
            }
        }
        print_row(&cells);
    }
    println!();
}

/// With which power of the size a figure grows, from the one size to the other: 1 if it grows as the size does, 2 if as its
/// square.
fn growth((from, to): (usize, usize), (least, greatest): (f64, f64)) -> f64 {
    (greatest / least).ln() / (to as f64 / from as f64).ln()
}

/// Whoever reads the figures, as they come or on the page, is told of times that are not to be trusted.
pub fn name_with_spread(name: &str, spread: f64) -> String {
    if spread <= STEADY_SPREAD {
        return name.into();
    }
    eprintln!(
        "bench: unsteady times: a median is {:.2} times the least; does something else run here?",
        spread
    );
    format!("{}, unsteady", name)
}

/// Instructions of the library beside those that it took in an earlier commit, by the benchmark of that commit. A work that
/// it does not know has no line.
pub fn print_before(program: &Path) {
    let headings = [
        "work",
        "size",
        "library instructions before",
        "library instructions",
        "instructions: library / before",
    ];
    let headings = headings.map(String::from);
    print_row(&headings);
    print_rule(&headings);
    for work in works() {
        for size in work.sizes {
            eprintln!("bench: {} of {} {}, before", work.name, size, work.unit);
            match instructions::by_program(program, work, &LIBRARY, size) {
                Some(before) => {
                    let after = instructions::for_one(work, &LIBRARY, size);
                    print_row(&before_and_after(work, size, before, after));
                }
                None => eprintln!("bench: that commit did not have this work"),
            }
        }
    }
    println!();
}

fn before_and_after(work: &Named, size: usize, before: u64, after: u64) -> Vec<String> {
    vec![
        work.name.into(),
        format!("{} {}", size, work.unit),
        grouped(before as usize),
        grouped(after as usize),
        format!("{:.3}", after as f64 / before as f64),
    ]
}

pub fn print_stack() {
    eprintln!("bench: the stack");
    println!("### Stack\n");
    let headings = ["call", "bytes of stack", "deepest in"].map(String::from);
    print_row(&headings);
    print_rule(&headings);
    for (call, deepest, work) in deepest_of_calls() {
        print_row(&[format!("`{}`", call), grouped(deepest), work.into()]);
    }
    println!();
}

/// Each public call, how many bytes of stack it writes at most, and the work in which it does so first.
fn deepest_of_calls() -> Vec<(&'static str, usize, &'static str)> {
    let mut calls = vec![("sprondilu_fresh", stack::deepest_of_fresh(), "fresh")];
    for work in works() {
        let call = match work.call {
            Some(call) => (call, (work.deepest)(), work.name),
            None => continue,
        };
        match calls.iter_mut().find(|other| other.0 == call.0) {
            Some(other) if other.1 >= call.1 => {}
            Some(other) => *other = call,
            None => calls.push(call),
        }
    }
    calls
}

pub fn print_row(cells: &[String]) {
    println!("| {} |", cells.join(" | "));
}

/// The line below the headings: numbers stand at the right.
pub fn print_rule(headings: &[String]) {
    println!("|---|{}", "---:|".repeat(headings.len() - 1));
}

/// A number as people read it, with a comma before every three digits.
pub fn grouped(number: usize) -> String {
    let digits = number.to_string();
    let mut grouped = String::new();
    for (place, digit) in digits.chars().enumerate() {
        if place > 0 && (digits.len() - place) % 3 == 0 {
            grouped.push(',');
        }
        grouped.push(digit);
    }
    grouped
}

#[cfg(test)]
mod tests {
    use super::{before_and_after, described, grouped, growth, headings, name_with_spread, LINE};
    use crate::works;

    const PAGE: &str = include_str!("../../../docs/BENCHMARKS.md");

    #[test]
    fn the_lines_that_describe_a_work_fit_a_page() {
        for work in works() {
            let described = described(work);
            assert!(described.starts_with(&format!("- {}: ", work.name)));
            for (place, line) in described.lines().enumerate() {
                assert!(line.len() <= LINE, "{}", line);
                let indented = line.starts_with("  ") && !line.starts_with("   ");
                assert_eq!(indented, place > 0, "{}", line);
            }
            let words = |text: &str| text.split_whitespace().count();
            assert_eq!(words(&described), words(work.about) + 2);
        }
    }

    #[test]
    fn the_page_describes_each_work_as_it_is_printed() {
        for work in works() {
            let lines = format!("\n{}\n", described(work));
            assert_eq!(PAGE.matches(&lines).count(), 1, "{}", lines);
        }
    }

    #[test]
    fn numbers_are_grouped_by_three_digits() {
        for (number, expected) in [
            (0, "0"),
            (999, "999"),
            (1_000, "1,000"),
            (49_176, "49,176"),
            (148_722_856, "148,722,856"),
        ] {
            assert_eq!(grouped(number), expected);
        }
    }

    #[test]
    fn times_that_are_not_to_be_trusted_are_marked() {
        assert_eq!(name_with_spread("valid", 1.1), "valid");
        assert_eq!(name_with_spread("valid", 1.6), "valid, unsteady");
    }

    #[test]
    fn the_ratio_is_what_is_taken_of_what_was_taken() {
        let valid = works().next().expect("a work");
        let line = before_and_after(valid, 512, 37_339_474, 11_933_392).join(" | ");
        assert_eq!(line, "valid | 512 rows | 37,339,474 | 11,933,392 | 0.320");
    }

    #[test]
    fn each_ratio_names_its_baseline() {
        let valid = works().next().expect("a work");
        let expected = "work, rows, bytes, library ns, twin ns, second ns, expert ns, ns: library / twin, \
            ns: library / second, ns: library / expert, library instructions, twin instructions, second instructions, \
            expert instructions, instructions: library / twin, instructions: library / second, \
            instructions: library / expert";
        assert_eq!(headings(valid).join(", "), expected);
    }

    #[test]
    fn growth_is_the_power_of_the_size() {
        let power = |figures| format!("{:.2}", growth((64, 512), figures));
        assert_eq!(power((1_000.0, 1_000.0)), "0.00");
        assert_eq!(power((1_000.0, 8_000.0)), "1.00");
        assert_eq!(power((1_000.0, 64_000.0)), "2.00");
    }
}
