//! `fresh`

use crate::common::json::Value;
use crate::common::ran::{bad_usage, not_tried, refused};
use crate::common::{fresh, run, Folder};

/// "Fresh box 0 of 3, whole: 01 00 03 00, sixteen 00, 00 00 00 18."
#[test]
fn the_image_of_the_paper() {
    let folder = Folder::new();
    let ran = run(&folder, "fresh --n 3 --box 0 zero.table").done();
    assert_eq!(ran.out, "zero.table: fresh table of box 0 of 3, 24 bytes\n");
    let paper = [&[1, 0, 3, 0][..], &[0; 16], &[0, 0, 0, 0x18]].concat();
    assert_eq!(folder.bytes("zero.table"), paper);
    assert_eq!(folder.names(), ["zero.table"]);
}

#[test]
fn every_box_of_every_group_is_that_of_the_second_program() {
    let folder = Folder::new();
    for (n, box_number) in [3, 5, 7].iter().flat_map(|n| (0..*n).map(move |b| (*n, b))) {
        let line = format!("fresh --json --box={} --n=0x{:x} a.table", box_number, n);
        let told = run(&folder, &line).done().json();
        assert_eq!(told.number("number"), Some(0));
        assert_eq!(told.text("name"), Some("done"));
        assert_eq!(told.text("file"), Some("a.table"));
        assert_eq!(told.number("length"), Some(24));
        assert_eq!(folder.bytes("a.table"), fresh(n, box_number));
        folder.remove("a.table");
    }
}

/// "fresh: bad n or box": 3.
#[test]
fn a_bad_group_or_box_is_refused() {
    let folder = Folder::new();
    for (n, box_number) in [(3, 3), (5, 5), (7, 7), (7, 255)] {
        let line = format!("fresh --n {} --box {} a.table", n, box_number);
        let (reason, _) = refused(&folder, &line, 3);
        assert!(reason.contains(&box_number.to_string()), "{}", reason);
    }
    for n in [0, 1, 2, 4, 6, 8, 9, 255] {
        let line = format!("fresh --n {} --box 0 a.table", n);
        let (reason, _) = refused(&folder, &line, 3);
        assert!(reason.contains(&format!("n is {}", n)), "{}", reason);
    }
    assert!(folder.names().is_empty());
}

#[test]
fn a_file_that_is_there_is_never_written_over() {
    let folder = Folder::new();
    folder.put("a.table", b"what a box holds");
    not_tried(&folder, "fresh --n 3 --box 0 a.table", "is there already");
    bad_usage(
        &folder,
        "fresh --n 3 --box 0 a.table --replace",
        "there is no option --replace",
    );
}

#[test]
fn words_that_make_no_sense() {
    let folder = Folder::new();
    for (line, words) in [
        ("fresh", "the file to write is missing"),
        ("fresh a.table", "--n is missing"),
        ("fresh --n 3 a.table", "--box is missing"),
        ("fresh --box 0 a.table", "--n is missing"),
        ("fresh --n 3 --box 0", "the file to write is missing"),
        ("fresh --n --box 0 a", "--n needs a value"),
        ("fresh --n 3 --box 0 a b", "'b' is one word too many"),
        ("fresh --n three --box 0 a", "--n is 3, 5 or 7, not 'three'"),
        ("fresh --n 3 --box -1 a", "'-1'"),
        ("fresh --n 3 --box +1 a", "'+1'"),
        ("fresh --n 256 --box 0 a", "'256'"),
        ("fresh --n 3 --box 0x100 a", "'0x100'"),
        ("fresh --n 3 --n 5 --box 0 a", "--n is given twice"),
        ("fresh --n= --box 0 a", "''"),
        ("fresh --n 3 --box 0 --out a", "there is no option --out"),
    ] {
        bad_usage(&folder, line, words);
    }
    run(&folder, "fresh a --n 3 --box").bad_usage("--box needs a value");
    assert!(folder.names().is_empty());
}

/// What is printed for programs is an object whose every field has a value.
#[test]
fn json_has_no_empty_fields() {
    let folder = Folder::new();
    let told = run(&folder, "fresh --json --n 3 --box 0 a").done().json();
    match told {
        Value::Object(fields) => assert!(!fields.values().any(|value| *value == Value::Null)),
        other => panic!("{:?}", other),
    }
}
