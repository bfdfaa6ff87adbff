//! The changes of the definitions that `tools/noticed` tries are changes of the definitions as they are. That each is noticed is
//! for that tool to say, since it takes minutes.

use house::trust::{self, Kind};
use house::{files, text, Edit};
use std::collections::BTreeSet;

const CHANGES: &str = "host/agree/changes";

/// The one file outside of `rules` of which cases speak. `tools/noticed` puts it beside the others.
const HALVING: &str = "specs/Halving.antt";

/// The crate whose definitions a change is one of.
fn changed_crate(change: &Edit) -> &'static str {
    match change.file {
        HALVING => "crates/rows",
        _ => "crates/rules",
    }
}

#[test]
fn a_change_of_the_definitions_fits_its_source() {
    for file in files(CHANGES, ".edit") {
        let change = text(&file);
        let change = Edit::of(&change);
        change.fits(changed_crate(&change));
        assert!(change.file.starts_with("specs/"), "{}", file);
        assert!(change.sentence.ends_with('.'), "{}", file);
        // `tools/noticed` makes one change.
        assert_eq!(change.changes.len(), 1, "{}", file);
    }
}

#[test]
fn every_file_of_the_definitions_is_changed_somewhere() {
    let texts: Vec<String> = files(CHANGES, ".edit").iter().map(|f| text(f)).collect();
    let changed: BTreeSet<&str> = texts.iter().map(|change| Edit::of(change).file).collect();
    let of_rules = trust::files()
        .into_iter()
        .filter(|file| file.starts_with("rules/"));
    for file in of_rules.filter(|file| trust::kind(file) == Kind::Promised) {
        let file = format!("{}.antt", file.trim_start_matches("rules/"));
        assert!(changed.contains(file.as_str()), "{}", file);
    }
    assert!(changed.contains(HALVING));
}

#[test]
fn no_two_changes_are_the_same() {
    let texts: Vec<String> = files(CHANGES, ".edit").iter().map(|f| text(f)).collect();
    let changed = |change: &String| {
        let change = Edit::of(change);
        change.made(changed_crate(&change))
    };
    let different: BTreeSet<String> = texts.iter().map(changed).collect();
    assert_eq!(different.len(), texts.len());
}
