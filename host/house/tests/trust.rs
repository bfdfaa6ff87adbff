//! The list of what a reader must believe is the tree's, and the tree shows it by its folders.

use house::trust::antt::{definitions as definitions_of, Definition, Scope};
use house::trust::page::{page, PAGE};
use house::trust::{contracts, definitions, files, kind, named_by_promises, Kind, BOUNDARY};
use house::{crates, text, top};
use std::collections::BTreeSet;

fn name(definition: &Definition) -> (String, String) {
    (definition.file.clone(), definition.name.clone())
}

#[test]
fn the_page_is_what_the_tool_writes() {
    let written = page();
    let stands = text(PAGE);
    let differs = written.lines().zip(stands.lines()).find(|(a, b)| a != b);
    assert_eq!(differs, None, "run tools/trust");
    assert_eq!(written, stands, "run tools/trust");
}

#[test]
fn a_file_of_specs_is_believed_whole_or_not_at_all() {
    let all = definitions();
    let named = named_by_promises(&all);
    for definition in &all {
        assert_eq!(
            named.contains(&name(definition)),
            kind(&definition.file) == Kind::Promised,
            "{}.{} is in a wrong place",
            definition.file,
            definition.name
        );
    }
}

#[test]
fn every_file_of_specs_is_read() {
    let read: BTreeSet<String> = files()
        .iter()
        .map(|file| format!("crates/{}.antt", file))
        .collect();
    for file in house::files("crates", ".antt") {
        let lists = file.ends_with("/Lib.antt") || file.ends_with("/specs/Inner.antt");
        if file.contains("/specs/") && !lists {
            assert!(read.contains(&file), "{} is named by no list", file);
        }
    }
}

/// The files of `rules` are in the order of document 01, which speaks of some things before it says what they are.
#[test]
fn a_file_uses_only_what_stands_above_it() {
    let order = files();
    let place = |file: &str| order.iter().position(|other| other == file);
    let others = definitions()
        .into_iter()
        .filter(|d| !d.file.starts_with("rules/"));
    for definition in others {
        let here = place(&definition.file);
        for (home, word) in &definition.names {
            assert!(
                place(home) <= here,
                "{} names {}.{}",
                definition.file,
                home,
                word
            );
        }
    }
}

/// Otherwise a definition could be left out because its name was not understood.
#[test]
fn whatever_is_named_is_there() {
    let all = definitions();
    let declared: BTreeSet<(String, String)> = all.iter().map(name).collect();
    for (home, name) in named_by_promises(&all) {
        let (first, _) = home.split_once('/').unwrap_or((&home, ""));
        if !crates().iter().any(|c| c == first) {
            continue;
        }
        let source = top().join(format!("crates/{}.rt", home));
        let in_code = source.is_file() && text(&format!("crates/{}.rt", home)).contains(&name);
        let there = in_code || declared.contains(&(home.clone(), name.clone()));
        assert!(there, "{} has no {}", home, name);
    }
}

#[test]
fn every_public_call_has_a_contract_that_names_something() {
    let calls = contracts(&text(BOUNDARY));
    assert_eq!(calls.len(), 7);
    for (call, names) in calls {
        assert!(
            names.iter().any(|(home, _)| home.contains("/specs/")),
            "{}",
            call
        );
    }
}

/// Read by hand: the first three are far from any promise, the others near one and named by none.
#[test]
fn some_definitions_are_where_a_reader_expects_them() {
    let all = definitions();
    let named = named_by_promises(&all);
    for (file, word, believed) in [
        ("wire/specs/Numbers", "number", true),
        ("group/specs/Rules", "CommitAfterOK", true),
        ("rules/specs/Merge", "merge", true),
        ("rows/specs/Inner/Places", "place_of", false),
        ("rules/specs/Inner/Clashes", "clash", false),
        ("history/specs/Beyond", "GoesThrough", false),
    ] {
        let found = all.iter().find(|d| d.file == file && d.name == word);
        let found = found.unwrap_or_else(|| panic!("{} has no {}", file, word));
        assert_eq!(named.contains(&name(found)), believed, "{}", word);
    }
}

const SOURCE: &str = "-- a file\n\
    use Rattle.std.specs.Prelude.{ℕ, ◌+◌}\n\
    use Rattle.rules.specs.Tables.{Table, Result.OK, valley}\n\
    use Rattle.merge.specs.Calls as merge\n\
    use Rattle.rows.specs.declared.row.RowFields.{RowFields}\n\
    use Rattle.rows.specs.declared.lookup.Place.TheVariants.{Absent}\n\
    \n\
    pub data Event : Type 0 where\n\
    \x20 -- not a word of this\n\
    \x20 sends arrives : ℕ → Event\n\
    \n\
    module _ (T : Table) where\n\
    \x20 abbrev pub first : Event -- Table\n\
    \x20 first = sends 1\n\
    \x20 pub second : RowFields\n\
    \x20 second = record { offset = merge.call_number OK; first = 2 }\n\
    \n\
    pub third : ℕ\n\
    third = valley.row_limit\n";

fn named(of: &Definition) -> Vec<String> {
    let names = of.names.iter();
    names
        .map(|(home, name)| format!("{}.{}", home, name))
        .collect()
}

#[test]
fn a_definition_names_what_its_text_and_its_block_say() {
    let found = definitions_of("x/specs/X", SOURCE);
    let names: Vec<&str> = found.iter().map(|d| d.name.as_str()).collect();
    assert_eq!(names, ["Event", "first", "second", "third"]);
    assert_eq!(
        named(&found[0]),
        ["Rattle.std.specs.Prelude.ℕ", "x/specs/X.Event"]
    );
    let first = [
        "rules/specs/Tables.Table",
        "x/specs/X.Event",
        "x/specs/X.first",
    ];
    assert_eq!(named(&found[1]), first);
    assert_eq!(
        named(&found[2]),
        [
            "merge/specs/Calls.call_number",
            "rows/src/row.RowFields",
            "rules/specs/Tables.Result",
            "rules/specs/Tables.Table",
            "x/specs/X.second",
        ]
    );
    assert_eq!(found[1].lines, 2);
    // a field is read of what is named before it
    assert_eq!(
        named(&found[3]),
        [
            "Rattle.std.specs.Prelude.ℕ",
            "rules/specs/Tables.valley",
            "x/specs/X.third",
        ]
    );
}

#[test]
fn a_word_in_infix_form_is_its_definition() {
    let names = Scope::of(SOURCE).names("a + (b)");
    assert_eq!(
        names.into_iter().collect::<Vec<_>>(),
        [("Rattle.std.specs.Prelude".to_string(), "◌+◌".to_string())]
    );
}

#[test]
fn a_variant_is_a_word_of_its_type() {
    let names = Scope::of(SOURCE).names("x ≡ Absent 1");
    assert_eq!(
        names.into_iter().collect::<Vec<_>>(),
        [("rows/src/lookup".to_string(), "Place".to_string())]
    );
}

#[test]
fn only_what_c_calls_is_a_public_contract() {
    let source = "ghost use Rattle.a.specs.A.{one, two, three, four, name};\n\
        #[unsafe(no_mangle)]\n\
        pub extern \"C\" fn f(x: u8) -> u8\n\
        \x20   requires {\n\
        \x20       three x ≡ x\n\
        \x20   }\n\
        \x20   ensures name { result ≡ one x }\n\
        \x20   ensures else { IfOk result (λ r. r ≡ four) }\n\
        {\n}\n\
        fn g(x: u8) -> u8\n\
        \x20   ensures { result ≡ two x }\n{\n}\n";
    let found = contracts(source);
    assert_eq!(found.len(), 1);
    assert_eq!(found[0].0, "f");
    let names: Vec<&str> = found[0].1.iter().map(|(_, name)| name.as_str()).collect();
    assert_eq!(names, ["four", "one", "three"]);
}
