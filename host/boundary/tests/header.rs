//! The C header: what a C program and a C++ program see through it, compiled with every warning an error; its constants, and
//! that an answer which is not used is warned of.

mod common;

use common::{assert_done, compile, here, made};
use std::collections::BTreeSet;
use std::fs;
use std::path::PathBuf;
use std::process::{Command, Output};

/// What `fresh.c` has to print; the images are those of the paper, and so is the reply, but for the last image: the paper's
/// row as a merge settles it. Of an answer to a message, and of a count, the whole stands behind its parts; behind that of a
/// count also that of the records.
///
/// The rows compared were counted by hand. Each of the five stamps comes to a table of 0 to 4 rows, and lies behind all of
/// them. So of none none is compared; of one the first; of two the second; of three the second and the third; of four the
/// third and the fourth. The first of five is found by the third, by the second of the two before that, and by itself.
const PRINTED: &str = "\
fresh, a null pointer: number 1, 0 bytes changed
fresh, a byte too short: number 1, 0 bytes changed
fresh, a byte too short and n 4: number 1, 0 bytes changed
fresh, n 4: number 3, 0 bytes changed
fresh, box 3 of 3: number 3, 0 bytes changed
valid, no image yet: number 2, answer 2
valid, a null pointer: number 2, answer 2
fresh, box 0 of 3: number 0, 24 bytes changed
01 00 03 00 00 00 00 00 00 00 00 00 00 00 00 00 00 00 00 00 00 00 00 18
valid, the fresh table: an image of 24 bytes
valid, its image alone: an image of 24 bytes
valid, a byte too short: number 2, answer 2
answer, a table buffer too short: number 1, 0 compared, answer 1, reply
ee ee ee ee ee ee ee ee ee ee ee ee ee ee ee ee ee ee ee ee ee ee ee ee ee
answer, a reply buffer too short: number 1, 0 compared, answer 1, reply
ee ee ee ee ee ee ee ee ee ee ee ee ee ee ee ee ee ee ee ee ee ee ee ee ee
answer, no message: number 3, 0 compared, answer 3, reply
03 00 00 00 00 00 00 00 00 00 00 00 00 00 00 00 00 00 00 00 00 00 00 00 ee
answer, a byte too many: number 3, 0 compared, answer 3, reply
03 00 00 00 00 00 00 00 00 00 00 00 00 00 00 00 00 00 00 00 00 00 00 00 ee
valid, after refusals: an image of 24 bytes
answer, the message of the paper: number 0, 0 compared, answer 0, reply
00 01 00 01 00 00 00 00 00 00 00 00 00 01 00 01 00 00 00 00 00 00 00 00 ee
valid, with the row of the paper: an image of 57 bytes
01 00 03 00 00 00 00 01 00 00 00 00 00 00 00 00 00 00 00 00 00 00 00 39 \
00 00 00 00 00 01 00 01 00 00 00 00 00 00 00 00 00 00 00 30 00 01 01 00 \
05 00 00 00 00 00 00 00 07
valid, with a retry stamp for OK: number 2, answer 2
answer, with a retry stamp for OK: number 2, 0 compared, answer 2, reply
02 00 00 00 00 00 00 00 00 00 00 00 00 00 00 00 00 00 00 00 00 00 00 00 ee
fresh, box 0 of 3: number 0, 24 bytes changed
answer, one stamp more: number 0, 0 compared, answer 0, reply
00 01 00 01 00 00 00 00 00 00 00 00 00 01 00 01 00 00 00 00 00 00 00 00 ee
answer, one stamp more: number 0, 1 compared, answer 10000, reply
00 01 00 01 00 00 00 00 00 00 00 00 00 02 00 01 00 00 00 00 00 00 00 00 ee
answer, one stamp more: number 0, 1 compared, answer 10000, reply
00 01 00 01 00 00 00 00 00 00 00 00 00 03 00 01 00 00 00 00 00 00 00 00 ee
answer, one stamp more: number 0, 2 compared, answer 20000, reply
00 01 00 01 00 00 00 00 00 00 00 00 00 04 00 01 00 00 00 00 00 00 00 00 ee
answer, one stamp more: number 0, 2 compared, answer 20000, reply
00 01 00 01 00 00 00 00 00 00 00 00 00 05 00 01 00 00 00 00 00 00 00 00 ee
answer, the first of five: number 0, 3 compared, answer 30000, reply
00 01 00 01 00 00 00 00 00 00 00 00 00 01 00 01 00 00 00 00 00 00 00 00 ee
answer, the first of five with another body: number 5, 3 compared, answer 30005, reply
05 00 00 00 00 00 00 00 00 00 00 00 00 00 00 00 00 00 00 00 00 00 00 00 ee
fresh, box 0 of 3: number 0, 24 bytes changed
answer, the message of the paper: number 0, 0 compared, answer 0, reply
00 01 00 01 00 00 00 00 00 00 00 00 00 01 00 01 00 00 00 00 00 00 00 00 ee
answer, a view promised: answer 0, a run of 57 bytes
fresh, box 2 of 3: number 0, 24 bytes changed
answer, a view promised: answer 0, a run of 81 bytes
merge, an output too short: number 1, 0 bytes changed
merge, no run: number 2, 0 bytes changed
merge, a byte too few: number 2, 0 bytes changed
merge, one table: number 11, 0 bytes changed
merge, another view: number 11, 0 bytes changed
merge, two tables: number 0, 57 bytes changed
01 01 03 00 00 00 00 01 00 00 00 07 00 00 00 07 00 00 00 01 00 00 00 39 \
00 00 00 00 00 01 00 01 00 00 00 00 00 00 00 00 00 00 00 30 00 01 05 00 \
05 00 00 00 00 00 00 00 07
fresh, a box of 3: number 0, 24 bytes changed
answer, the message of the paper: number 0, 0 compared, answer 0, reply
00 01 00 01 00 00 00 00 00 00 00 00 00 01 00 01 00 00 00 00 00 00 00 00 ee
fresh, a box of 3: number 0, 24 bytes changed
answer, the message of the paper: number 0, 0 compared, answer 0, reply
00 01 01 01 00 00 00 00 00 00 00 00 00 01 00 01 00 00 00 00 00 00 00 00 ee
fresh, a box of 3: number 0, 24 bytes changed
answer, the message of the paper: number 0, 0 compared, answer 0, reply
00 01 02 01 00 00 00 00 00 00 00 00 00 01 00 01 00 00 00 00 00 00 00 00 ee
00 00 00 00 00 01 00 00 00 00 00 00 00 00 00 \
01 00 00 00 00 01 00 00 00 00 00 00 00 00 00 \
02 00 00 00 00 01 00 00 00 00 00 00 00 00 00
count, a null pointer: wait, answer 0, of records 0
count, one reply: wait, answer 0, of records 0
count, two replies: slow with 1, retry stamp 0, answer 600, of records 600
count, three replies: fast with 1, retry stamp 0, answer 500, of records 500
count, n 4: number 3, answer 3, of records 3
count, a byte too few: number 3, answer 3
count, one is ABORT: slow with 2, retry stamp 0, answer a00, of records a00
count, two unequal finals: number 6, answer 6, of records 6
count, two unequal finals and n 6: number 3, answer 3, of records 3
count, RETRY is final: slow with 4, retry stamp 9, answer 91200, of records 91200
records, seven of 7: answer 500
records, eight: answer 3
";

#[test]
fn a_c_program_gets_what_the_paper_says() {
    let program = made("fresh");
    let compiled = compile("cc", "-std=c11", &[here("tests/fresh.c")], &program);
    assert_done("cc", &compiled.expect("a C compiler"));
    let run = Command::new(&program).output().expect("a program");
    assert_done("the program", &run);
    assert_eq!(String::from_utf8_lossy(&run.stdout), PRINTED);
}

const CPP: &str = "#include \"sprondilu.h\"\n\
    int main() {\n\
    const sprondilu_record records[2] = {{0, SPRONDILU_RETRY, 0, 9, 5}, {1, SPRONDILU_OK, 1, 9, 0}};\n\
    const uint8_t message[20] = {1, 0, 0, 0, 0, 0, 1, 0, 1, 0, 1, 5, 0, 0, 0, 0, 0, 0, 0, 7};\n\
    static uint8_t table[SPRONDILU_TABLE_BYTES];\n\
    uint8_t reply[SPRONDILU_REPLY_BYTES];\n\
    return SPRONDILU_NUMBER_OF(sprondilu_valid(nullptr, 0)) == SPRONDILU_BAD_TABLE\n\
    && sprondilu_fresh(nullptr, 0, 3, 0) == SPRONDILU_SMALL_BUFFER\n\
    && sprondilu_answer(nullptr, 0, nullptr, 0, nullptr, 0) == SPRONDILU_SMALL_BUFFER\n\
    && sprondilu_answer_compared(nullptr, 0, nullptr, 0, nullptr, 0) == SPRONDILU_SMALL_BUFFER\n\
    && sprondilu_fresh(table, sizeof table, 3, 0) == SPRONDILU_DONE\n\
    && sprondilu_answer_compared(table, sizeof table, message, 20, reply, sizeof reply) == SPRONDILU_DONE\n\
    && SPRONDILU_COMPARED_OF(sprondilu_answer_compared(table, sizeof table, message, 20, reply, sizeof reply)) == 1\n\
    && sprondilu_merge(nullptr, 0, 1, nullptr, 0) == SPRONDILU_SMALL_BUFFER\n\
    && SPRONDILU_NUMBER_OF(sprondilu_count(3, nullptr, 0)) == SPRONDILU_DONE\n\
    && SPRONDILU_KIND_OF(sprondilu_count(3, nullptr, 0)) == SPRONDILU_WAIT\n\
    && sprondilu_count_records(3, nullptr, 0) == sprondilu_count(3, nullptr, 0)\n\
    && SPRONDILU_KIND_OF(sprondilu_count_records(3, records, 2)) == SPRONDILU_SLOW\n\
    && SPRONDILU_RESULT_OF(sprondilu_count_records(3, records, 2)) == SPRONDILU_OK ? 0 : 1;\n\
    }\n";

/// The compilers of a language, and the standards of it by which the header is marked in one way or another.
struct Language {
    ending: &'static str,
    compilers: [&'static str; 3],
    standards: &'static [&'static str],
    /// An assertion while compiling.
    asserts: &'static str,
}

const LANGUAGES: [Language; 2] = [
    Language {
        ending: "c",
        compilers: ["cc", "gcc", "clang"],
        standards: &["-std=c11"],
        asserts: "_Static_assert",
    },
    Language {
        ending: "cpp",
        compilers: ["c++", "g++", "clang++"],
        standards: &["-std=c++11", "-std=c++17"],
        asserts: "static_assert",
    },
];

/// Where the program of that name is, as one compiler makes it by one standard.
fn program(name: &str, how: &str) -> PathBuf {
    made(&format!("{} {}", name, how))
}

/// Compiles a source by every standard with every compiler of the language that is here, and links it. Without a C compiler
/// nothing of this can be tried; without one of C++ that is said.
fn compiled(language: &Language, name: &str, source: &str) -> Vec<(String, Output)> {
    let sources = [made(&format!("{}.{}", name, language.ending))];
    fs::write(&sources[0], source).expect("a source");
    let mut found = Vec::new();
    for compiler in language.compilers {
        for standard in language.standards {
            let how = format!("{} {}", compiler, standard);
            let done = compile(compiler, standard, &sources, &program(name, &how));
            found.extend(done.map(|done| (how, done)));
        }
    }
    if found.is_empty() {
        assert_eq!(language.ending, "cpp", "there is no C compiler here");
        eprintln!("There is no C++ compiler here: {} was not tried.", name);
    }
    found
}

#[test]
fn a_cpp_program_links_the_same_calls() {
    for (how, done) in compiled(&LANGUAGES[1], "calls", CPP) {
        assert_done(&how, &done);
        let run = Command::new(program("calls", &how)).output();
        assert_done(&how, &run.expect("a program"));
    }
}

/// The symbols of the archive that `nm` prints with one of these letters.
fn symbols(letters: &str) -> BTreeSet<String> {
    let listed = Command::new("nm").arg(env!("SPRONDILU_ARCHIVE")).output();
    let listed = listed.expect("nm, which comes with the compiler");
    assert_done("nm", &listed);
    String::from_utf8_lossy(&listed.stdout)
        .lines()
        .filter_map(|line| line.rsplit_once(' '))
        .filter(|(before, _)| before.ends_with(|letter| letters.contains(letter)))
        .map(|(_, name)| name.to_string())
        .collect()
}

fn header() -> String {
    fs::read_to_string(here("../../include/sprondilu.h")).expect("the header")
}

/// The calls that the header declares, each on a line that begins with the type of its answer.
fn declared() -> BTreeSet<String> {
    header()
        .lines()
        .filter(|line| line.starts_with("uint"))
        .filter_map(|line| line.split(&[' ', '('][..]).nth(1))
        .map(str::to_string)
        .collect()
}

// ---- The constants.

/// Sentences of the paper, as the papers here have them, and the constants that each fixes: the name behind `SPRONDILU_`, and
/// the value. Message 3 is the longest but message 6: 1, 8, 1 and 2 bytes, and eight accesses of 9.
const FIXED: [(&str, &[(&str, u32)]); 29] = [
    ("done: none below applies", &[("DONE", 0)]),
    ("small buffer: table or output", &[("SMALL_BUFFER", 1)]),
    ("bad table: the lent table", &[("BAD_TABLE", 2)]),
    ("bad message: kind, length", &[("BAD_MESSAGE", 3)]),
    ("changing: messages 1 to 4", &[("CHANGING", 4)]),
    ("other body: the stamp is", &[("OTHER_BODY", 5)]),
    ("contradiction: an unequal", &[("CONTRADICTION", 6)]),
    ("full: a new stamp with 512", &[("FULL", 7)]),
    ("unknown: finalising a part", &[("UNKNOWN", 8)]),
    ("other view: message 2 or 4", &[("OTHER_VIEW", 9)]),
    ("old view: message 5 with v", &[("OLD_VIEW", 10)]),
    ("wrong tables: merge: not", &[("WRONG_TABLES", 11)]),
    (
        "A table buffer has at least 49,176 bytes.",
        &[("TABLE_BYTES", 49_176)],
    ),
    (
        "Header, 24 bytes: format 1; box; n; mode (0 normal, 1 changing); then 4 bytes each: rows, view (last normal), promised",
        &[("TABLE_BOX", 1), ("TABLE_N", 2), ("TABLE_PROMISED", 12)],
    ),
    (
        "1 propose prepare: kind, stamp, two counts, body.",
        &[("PROPOSE_PREPARE", 1)],
    ),
    (
        "2 finalise prepare: kind, stamp, view 4, result 1 to 4, retry stamp",
        &[("FINALISE_PREPARE", 2)],
    ),
    (
        "3 propose outcome: kind, stamp, 1 commit or 2 abort, counts, body.",
        &[
            ("PROPOSE_OUTCOME", 3),
            ("OUTCOME_COMMIT", 1),
            ("OUTCOME_ABORT", 2),
            ("SMALL_MESSAGE_BYTES", 1 + 8 + 1 + 2 + 8 * 9),
        ],
    ),
    (
        "4 finalise outcome: kind, stamp, view 4, 1 or 2.",
        &[("FINALISE_OUTCOME", 4)],
    ),
    ("5 change view: kind, v 4.", &[("CHANGE_VIEW", 5)]),
    (
        "6 start view: kind, v 4, image.",
        &[
            ("START_VIEW", 6),
            ("START_VIEW_IMAGE", 5),
            ("MESSAGE_BYTES", 5 + 49_176),
        ],
    ),
    ("7 read: kind, stamp, register.", &[("READ", 7)]),
    (
        "Reply, 24 bytes: number 0, kind, box, state byte",
        &[
            ("REPLY_BYTES", 24),
            ("REPLY_NUMBER", 0),
            ("REPLY_KIND", 1),
            ("REPLY_BOX", 2),
            ("REPLY_STATE", 3),
        ],
    ),
    (
        "last normal view after the call 4, stamp 8, value 8.",
        &[("REPLY_VIEW", 4), ("REPLY_STAMP", 8), ("REPLY_VALUE", 16)],
    ),
    (
        "Prepare: 0 none; 1 to 4 tentative OK, ABORT, ABSTAIN, RETRY;",
        &[
            ("TENTATIVE_OK", 1),
            ("TENTATIVE_ABORT", 2),
            ("TENTATIVE_ABSTAIN", 3),
            ("TENTATIVE_RETRY", 4),
        ],
    ),
    (
        "5 to 8 the same, final.",
        &[
            ("FINAL_OK", 5),
            ("FINAL_ABORT", 6),
            ("FINAL_ABSTAIN", 7),
            ("FINAL_RETRY", 8),
        ],
    ),
    (
        "Outcome: 0 none, 1 commit noted, 2 abort noted, 3 commit done, 4 abort done.",
        &[
            ("COMMIT_NOTED", 1),
            ("ABORT_NOTED", 2),
            ("COMMIT_DONE", 3),
            ("ABORT_DONE", 4),
        ],
    ),
    (
        "finalise prepare: kind, stamp, view 4, result 1 to 4",
        &[("OK", 1), ("ABORT", 2), ("ABSTAIN", 3), ("RETRY", 4)],
    ),
    (
        "list of small records: box, view, result with its retry stamp, final or not.",
        &[("COUNTED_BYTES", 1 + 4 + 1 + 8 + 1)],
    ),
    (
        "(0 wait, 1 fast, 2 slow)",
        &[("WAIT", 0), ("FAST", 1), ("SLOW", 2)],
    ),
];

/// The constants that are fixed, with their values.
fn fixed() -> Vec<(&'static str, u32)> {
    let constants = FIXED.iter().flat_map(|(_, constants)| constants.iter());
    constants.copied().collect()
}

/// A source that does not compile unless the constants have these values.
fn asserting(language: &Language, constants: &[(&str, u32)]) -> String {
    let asserts = constants.iter().map(|(name, value)| {
        let said = format!("SPRONDILU_{} == {}", name, value);
        format!("{}({}, \"{}\");\n", language.asserts, said, said)
    });
    let asserts: String = asserts.collect();
    let main = "int main(void)\n{\n    return 0;\n}\n";
    format!("#include \"sprondilu.h\"\n{}{}", asserts, main)
}

#[test]
fn the_constants_are_those_of_the_paper() {
    for language in &LANGUAGES {
        for (how, done) in compiled(language, "constants", &asserting(language, &fixed())) {
            assert_done(&how, &done);
        }
        let mut other = fixed();
        let (name, value) = other.last_mut().expect("a constant");
        *value += 1;
        let said = format!("SPRONDILU_{} == {}", name, value);
        for (how, done) in compiled(language, "other", &asserting(language, &other)) {
            let error = String::from_utf8_lossy(&done.stderr);
            assert!(!done.status.success(), "{} passes over {}", how, said);
            assert!(error.contains(&said), "{}: {}", how, error);
        }
    }
}

/// The pages of the claims, one behind the other.
fn claims() -> String {
    let pages = fs::read_dir(here("../../docs/CLAIMS")).expect("the claims");
    pages
        .map(|page| fs::read_to_string(page.expect("a page").path()).expect("its text"))
        .collect()
}

/// Every constant of the header that is a number has a sentence, and every sentence is in the papers.
#[test]
fn no_constant_is_without_a_sentence() {
    let claims = claims();
    for (sentence, _) in FIXED {
        assert!(claims.contains(sentence), "{}", sentence);
    }
    let header = header();
    let numbers = header.lines().filter_map(|line| {
        let constant = line.strip_prefix("#define SPRONDILU_")?;
        let (name, value) = constant.split_once(' ')?;
        Some((name, value.parse::<u32>().ok()?))
    });
    let numbers: BTreeSet<(&str, u32)> = numbers.collect();
    let fixed: BTreeSet<(&str, u32)> = fixed().into_iter().collect();
    assert_eq!(numbers, fixed);
}

// ---- Answers that are not used.

/// A use of each call, with nothing lent.
const USES: [&str; 7] = [
    "sprondilu_fresh(NULL, 0, 3, 0)",
    "sprondilu_valid(NULL, 0)",
    "sprondilu_answer(NULL, 0, NULL, 0, NULL, 0)",
    "sprondilu_answer_compared(NULL, 0, NULL, 0, NULL, 0)",
    "sprondilu_merge(NULL, 0, 1, NULL, 0)",
    "sprondilu_count(3, NULL, 0)",
    "sprondilu_count_records(3, NULL, 0)",
];

/// A program of statements, one for each call.
fn using(statement: fn(&str) -> String) -> String {
    let statements: String = USES.iter().map(|used| statement(used)).collect();
    format!(
        "#include \"sprondilu.h\"\nint main(void)\n{{\n    unsigned long long sum = 0;\n{}    return sum == 42;\n}}\n",
        statements
    )
}

#[test]
fn an_answer_that_is_not_used_is_warned_of() {
    let used: BTreeSet<&str> = USES.iter().filter_map(|u| u.split('(').next()).collect();
    assert!(declared().iter().eq(used), "a call is not tried");
    for language in &LANGUAGES {
        let looked_at = using(|call| format!("    sum += {};\n", call));
        for (how, done) in compiled(language, "used", &looked_at) {
            assert_done(&how, &done);
            assert!(done.stderr.is_empty(), "{}: {:?}", how, done);
        }
        let dropped = using(|call| format!("    {};\n", call));
        for (how, done) in compiled(language, "unused", &dropped) {
            let error = String::from_utf8_lossy(&done.stderr);
            assert!(!done.status.success(), "{} passes over it", how);
            let warned = error.matches("error=unused-result").count()
                + error.matches("Werror,-Wunused-result").count();
            assert_eq!(warned, USES.len(), "{}: {}", how, error);
        }
    }
}

// ---- The archive.

#[test]
fn the_library_has_the_calls_of_the_header() {
    let calls: BTreeSet<String> = symbols("T")
        .into_iter()
        .filter(|name| name.starts_with("sprondilu_"))
        .collect();
    assert!(calls.contains("sprondilu_fresh"), "{:?}", calls);
    assert_eq!(calls, declared());
}

#[test]
fn the_library_needs_three_functions_of_memory_at_most() {
    let there = symbols("TtWV");
    let mut needed = symbols("U");
    needed.retain(|name| !there.contains(name));
    needed.retain(|name| !["memset", "memcpy", "memmove"].contains(&name.as_str()));
    assert!(needed.is_empty(), "{:?}", needed);
}
