//! The reader of JSON by which the tests read what the program prints.

use crate::common::json::read;

#[test]
fn the_reader_takes_json_and_nothing_else() {
    let good = r#" {"a": [1, 0, {"b": "x\"\u0041\n"}], "c": null, "d": [], "e": {}} "#;
    let value = read(good).expect("JSON");
    assert_eq!(value.list("a")[2].text("b"), Some("x\"A\n"));
    for bad in [
        "",
        "{",
        "[1,]",
        "[1 2]",
        "01",
        "1.5",
        "-1",
        "nul",
        "{\"a\" 1}",
        "{a: 1}",
        "\"\n\"",
        "1 2",
        "{\"a\": 1, \"a\": 2}",
        "9007199254740992",
        "\"\\x\"",
        "\"",
    ] {
        assert!(read(bad).is_err(), "{}", bad);
    }
}
