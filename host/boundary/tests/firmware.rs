//! The page for firmware writers and the example that it goes through: the example is compiled, run, and held to the second
//! program; bent, it has to notice. The page is held to the example and to the C header.

mod common;

use common::{assert_done, compile, here, made};
use reference::{Body, Counted, Decision, Message, Number, Outcome, PrepareResult, Table};
use std::fs;
use std::path::{Path, PathBuf};
use std::process::{Command, Output};

const PAGE: &str = "docs/FIRMWARE.md";
const SOURCES: [&str; 2] = ["examples/box.c", "examples/story.c"];
const SHARED: &str = "examples/box.h";

/// A path from the top of the repository.
fn top(path: &str) -> PathBuf {
    here("../..").join(path)
}

fn text(path: &str) -> String {
    fs::read_to_string(top(path)).unwrap_or_else(|error| panic!("{}: {}", path, error))
}

/// Compiles the example's sources and runs it.
fn played(sources: &[PathBuf], program: &Path) -> Output {
    let compiled = compile("cc", "-std=c11", sources, program);
    assert_done("cc", &compiled.expect("a C compiler"));
    Command::new(program).output().expect("a program")
}

/// What the example prints, from a program of its own for each test.
fn printed(name: &str) -> String {
    let sources: Vec<PathBuf> = SOURCES.iter().map(|source| top(source)).collect();
    let run = played(&sources, &made(name));
    let printed = String::from_utf8(run.stdout.clone()).expect("text");
    assert!(run.status.success(), "{}: {}", run.status, printed);
    assert!(run.stderr.is_empty(), "{:?}", run);
    printed
}

#[test]
fn the_example_prints_what_the_page_refers_to() {
    let printed = printed("box");
    assert_eq!(printed, text("examples/box.out"));
    assert!(printed.ends_with("\nall as expected\n"), "{}", printed);
}

// ---- What it comes to, by the second program.

/// A body by its reads, each a register and a version, and its writes, each a register and a value.
fn body(reads: &[(u8, u64)], writes: &[(u8, u64)]) -> Body {
    Body {
        reads: reads.iter().copied().collect(),
        writes: writes.iter().copied().collect(),
    }
}

/// "time times 65,536 plus client"
fn stamp(time: u64, client: u64) -> u64 {
    time * 65_536 + client
}

fn number(bytes: &[u8]) -> u64 {
    bytes
        .iter()
        .fold(0, |number, byte| number * 256 + u64::from(*byte))
}

/// A reply to message 1 or 2, taken apart by the paper: "number 0, kind, box, state byte [..], last normal view after the call
/// 4, stamp 8, value 8".
fn counted(reply: &[u8]) -> Counted {
    let is_final = reply[3] > 4;
    let code = if is_final { reply[3] - 4 } else { reply[3] };
    Counted {
        box_number: reply[2],
        view: number(&reply[4..8]) as u32,
        result: PrepareResult::from_code(code, number(&reply[16..24])).expect("a result"),
        is_final,
    }
}

fn decided(replies: &[Vec<u8>]) -> Decision {
    let counted: Vec<Counted> = replies.iter().map(|reply| counted(reply)).collect();
    reference::decide(3, &counted).expect("replies that can be counted")
}

/// The tables of three boxes, and who hears what in the story. Nothing here is taken from the example.
struct Group {
    tables: Vec<Vec<u8>>,
}

impl Group {
    fn fresh() -> Group {
        let mut tables = vec![vec![0; 49_176]; 3];
        for (box_number, table) in tables.iter_mut().enumerate() {
            assert_eq!(reference::fresh(table, 3, box_number as u8), 0);
        }
        Group { tables }
    }

    fn image(&self, box_number: usize) -> Vec<u8> {
        let table = &self.tables[box_number];
        let (_, length) = Table::parse(table).expect("an image");
        table[..length].to_vec()
    }

    /// A box hears a message: the number, and the reply.
    fn answer(&mut self, box_number: usize, message: &Message) -> (u8, Vec<u8>) {
        let mut reply = vec![0; 24];
        let table = &mut self.tables[box_number];
        let number = reference::answer(table, &message.bytes(), &mut reply);
        (number, reply)
    }

    /// These boxes hear a message, and every one of them does it; their replies.
    fn hear(&mut self, boxes: &[usize], message: &Message) -> Vec<Vec<u8>> {
        let mut replies = Vec::new();
        for box_number in boxes {
            let (number, reply) = self.answer(*box_number, message);
            assert_eq!(number, 0, "box {}: {:?}", box_number, message);
            replies.push(reply);
        }
        replies
    }

    fn prepare(&mut self, boxes: &[usize], stamp: u64, body: &Body) -> Decision {
        let body = body.clone();
        decided(&self.hear(boxes, &Message::ProposePrepare { stamp, body }))
    }

    /// Message 2, if the decision was slow.
    fn finalise(&mut self, boxes: &[usize], stamp: u64, view: u32, decision: Decision) {
        if let Decision::Slow(result) = decision {
            let message = Message::FinalisePrepare {
                stamp,
                view,
                result,
            };
            self.hear(boxes, &message);
        }
    }

    /// Message 3.
    fn propose(&mut self, boxes: &[usize], stamp: u64, outcome: Outcome, body: &Body) {
        let body = body.clone();
        let proposed = Message::ProposeOutcome {
            stamp,
            outcome,
            body,
        };
        self.hear(boxes, &proposed);
    }

    /// Messages 3 and 4.
    fn conclude(&mut self, boxes: &[usize], stamp: u64, view: u32, outcome: Outcome, body: &Body) {
        self.propose(boxes, stamp, outcome, body);
        let finalised = Message::FinaliseOutcome {
            stamp,
            view,
            outcome,
        };
        self.hear(boxes, &finalised);
    }

    /// A transaction from message 1 to message 4, in view 0.
    fn transact(&mut self, boxes: &[usize], stamp: u64, body: &Body) -> Decision {
        let decision = self.prepare(boxes, stamp, body);
        self.finalise(boxes, stamp, 0, decision);
        let outcome = match decision {
            Decision::Fast(PrepareResult::Ok) | Decision::Slow(PrepareResult::Ok) => {
                Outcome::Commit
            }
            _ => Outcome::Abort,
        };
        self.conclude(boxes, stamp, 0, outcome, body);
        decision
    }

    /// As many entries of a client as a box has room for, each a write of a register of the client's own; how many that were.
    fn fill(&mut self, box_number: usize, client: u8) -> usize {
        let body = body(&[], &[(50 + client, 0)]);
        let is_taken = |time: &u64| {
            let (stamp, body) = (stamp(*time, u64::from(client)), body.clone());
            self.answer(box_number, &Message::ProposePrepare { stamp, body })
                .0
                == 0
        };
        (100..).take_while(is_taken).count()
    }

    /// These boxes have no room for a stamp, neither for message 1 nor for an abort.
    fn have_no_room(&mut self, boxes: &[usize], stamp: u64, body: &Body) {
        let (outcome, body) = (Outcome::Abort, body.clone());
        let asked = Message::ProposePrepare {
            stamp,
            body: body.clone(),
        };
        let given_up = Message::ProposeOutcome {
            stamp,
            outcome,
            body,
        };
        for box_number in boxes {
            assert_eq!(self.answer(*box_number, &asked).0, 7);
            assert_eq!(self.answer(*box_number, &given_up).0, 7);
        }
    }

    /// Boxes promise a view, and the tables of two of them are merged: the number, and the output.
    fn merge(&mut self, view: u32, boxes: &[usize], two: [usize; 2]) -> (u8, Vec<u8>) {
        self.hear(boxes, &Message::ChangeView { view });
        let run = two.map(|box_number| self.image(box_number)).concat();
        let mut output = vec![0; 49_176];
        (reference::merge(&run, view, &mut output), output)
    }

    /// Message 6 with such a merge.
    fn merged(&mut self, view: u32, boxes: &[usize], two: [usize; 2]) -> Message {
        let (number, output) = self.merge(view, boxes, two);
        assert_eq!(number, 0, "view {}", view);
        let (image, _) = Table::parse(&output).expect("an image");
        Message::StartView { view, image }
    }
}

/// A, B, C and D, in view 0.
fn tell_of_view_0(group: &mut Group) {
    let (ok, abort) = (PrepareResult::Ok, PrepareResult::Abort);
    let a = body(&[], &[(5, 7)]);
    let decision = group.transact(&[0, 1, 2], stamp(1, 1), &a);
    assert_eq!(decision, Decision::Fast(ok));
    // Box 2 is away. What a power cut in between does to box 1 is nothing: it hears the message again.
    let b = body(&[(5, stamp(1, 1))], &[(6, 9)]);
    let decision = group.transact(&[0, 1], stamp(2, 1), &b);
    assert_eq!(decision, Decision::Slow(ok));
    let c = body(&[(5, stamp(1, 1))], &[(5, 8)]);
    let decision = group.transact(&[0, 1], stamp(3, 1), &c);
    assert_eq!(decision, Decision::Slow(ok));
    let d = body(&[(5, stamp(1, 1))], &[(6, 10)]);
    let decision = group.transact(&[0, 1, 2], stamp(4, 2), &d);
    assert_eq!(decision, Decision::Slow(abort));
}

/// E, in both views. Box 0 is away while view 1 begins, and late for it.
fn tell_of_the_change(group: &mut Group) {
    let ok = PrepareResult::Ok;
    let e = body(&[(5, stamp(3, 1))], &[(5, 12), (7, 1)]);
    let decision = group.prepare(&[1, 2], stamp(5, 1), &e);
    assert_eq!(decision, Decision::Slow(ok), "in view 0");
    let start = group.merged(1, &[1, 2], [1, 2]);
    group.hear(&[1, 2], &start);
    group.prepare(&[0], stamp(5, 1), &e);
    let decision = group.prepare(&[1, 2], stamp(5, 1), &e);
    assert_eq!(decision, Decision::Slow(ok), "in view 1");
    group.finalise(&[1, 2], stamp(5, 1), 1, decision);
    group.conclude(&[1, 2], stamp(5, 1), 1, Outcome::Commit, &e);
    group.hear(&[0], &start);
    group.conclude(&[0], stamp(5, 1), 1, Outcome::Commit, &e);
}

/// F, which is given up, G, for which a second count would come to another result, and H, for which box 0 alone has room.
fn tell_of_view_1(group: &mut Group) {
    let (ok, abstain) = (PrepareResult::Ok, PrepareResult::Abstain);
    let f = body(&[], &[(8, 3)]);
    assert_eq!(group.prepare(&[0], stamp(6, 1), &f), Decision::Wait);
    let g = body(&[(8, 0)], &[(9, 4)]);
    let asked = Message::ProposePrepare {
        stamp: stamp(7, 2),
        body: g.clone(),
    };
    let mut heard = group.hear(&[0, 1], &asked);
    let decision = decided(&heard);
    assert_eq!(decision, Decision::Slow(abstain));
    group.finalise(&[1], stamp(7, 2), 1, decision);
    heard.extend(group.hear(&[2], &asked));
    assert_eq!(decided(&heard), Decision::Slow(ok), "counted once more");
    group.finalise(&[0, 2], stamp(7, 2), 1, decision);
    group.conclude(&[0, 2], stamp(7, 2), 1, Outcome::Abort, &g);
    group.conclude(&[1], stamp(7, 2), 1, Outcome::Abort, &g);
    let decision = group.prepare(&[0, 1], stamp(6, 1), &f);
    assert_eq!(decision, Decision::Slow(ok));
    group.conclude(&[0, 1], stamp(6, 1), 1, Outcome::Abort, &f);
    group.conclude(&[2], stamp(6, 1), 1, Outcome::Abort, &f);
    let h = body(&[], &[(10, 6)]);
    assert_eq!(group.prepare(&[0], stamp(8, 1), &h), Decision::Wait);
    group.conclude(&[0, 1, 2], stamp(8, 1), 1, Outcome::Abort, &h);
}

/// I, whose commit box 0 has in view 3 and the others in view 4; J, which is given up though OK was declared; and K, whose
/// handset is lost then.
fn tell_of_what_was_declared(group: &mut Group) {
    let fast = Decision::Fast(PrepareResult::Ok);
    let (i, commit) = (body(&[], &[(11, 5)]), Outcome::Commit);
    assert_eq!(group.prepare(&[0, 1, 2], stamp(9, 1), &i), fast);
    group.propose(&[0], stamp(9, 1), commit, &i);
    let start = group.merged(4, &[1, 2], [1, 2]);
    group.hear(&[1, 2], &start);
    group.propose(&[0, 1, 2], stamp(9, 1), commit, &i);
    group.hear(&[0], &start);
    group.conclude(&[0, 1, 2], stamp(9, 1), 4, commit, &i);
    let j = body(&[], &[(12, 2)]);
    assert_eq!(group.prepare(&[0, 1, 2], stamp(10, 1), &j), fast);
    group.conclude(&[0, 1, 2], stamp(10, 1), 4, Outcome::Abort, &j);
    let k = body(&[], &[(13, 4)]);
    assert_eq!(group.prepare(&[0, 1, 2], stamp(11, 3), &k), fast);
}

/// L, whose stamp box 2 holds with another body: the others accept its commit. No view begins with both bodies.
fn tell_of_the_broken_rule(group: &mut Group) {
    let elsewhere = body(&[], &[(14, 3)]);
    let decision = group.prepare(&[2], stamp(12, 4), &elsewhere);
    assert_eq!(decision, Decision::Wait);
    let (l, outcome) = (body(&[], &[(14, 8)]), Outcome::Commit);
    let decision = group.prepare(&[0, 1], stamp(12, 4), &l);
    assert_eq!(decision, Decision::Slow(PrepareResult::Ok));
    group.finalise(&[0, 1], stamp(12, 4), 4, decision);
    group.propose(&[0, 1], stamp(12, 4), outcome, &l);
    let proposed = Message::ProposeOutcome {
        stamp: stamp(12, 4),
        outcome,
        body: l,
    };
    assert_eq!(group.answer(2, &proposed).0, 5);
    assert_eq!(group.merge(5, &[2, 0], [2, 0]).0, 5);
    let start = group.merged(6, &[0, 1], [0, 1]);
    group.hear(&[0, 1, 2], &start);
}

/// The story of the page up to the images that it prints, told to the second program.
fn told() -> Group {
    let mut group = Group::fresh();
    tell_of_view_0(&mut group);
    tell_of_the_change(&mut group);
    tell_of_view_1(&mut group);
    // The image of box 0 is lost; then box 1 is late.
    let start = group.merged(2, &[0, 1, 2], [1, 2]);
    group.hear(&[0, 1, 2], &start);
    let start = group.merged(3, &[0, 2], [0, 2]);
    group.hear(&[0, 1, 2], &start);
    tell_of_what_was_declared(&mut group);
    tell_of_the_broken_rule(&mut group);
    group
}

/// M, for which a view change makes room. Boxes 1 and 2 have taken the same entries.
fn tell_of_room(group: &mut Group) {
    assert_eq!((group.fill(1, 5), group.fill(2, 5)), (250, 250));
    let m = body(&[], &[(15, 9)]);
    assert_eq!(group.prepare(&[0], stamp(13, 1), &m), Decision::Wait);
    group.have_no_room(&[1, 2], stamp(13, 1), &m);
    let start = group.merged(7, &[1, 2], [1, 2]);
    group.hear(&[0, 1, 2], &start);
    let decision = group.prepare(&[0, 1, 2], stamp(13, 1), &m);
    assert_eq!(decision, Decision::Fast(PrepareResult::Ok));
    group.conclude(&[0, 1, 2], stamp(13, 1), 7, Outcome::Commit, &m);
}

/// N, for which none does: boxes 1 and 2 have taken different entries. The group goes on with M, and with a view.
fn tell_of_the_dry_week(group: &mut Group) {
    assert_eq!((group.fill(1, 6), group.fill(2, 7)), (124, 124));
    let n = body(&[], &[(16, 2)]);
    assert_eq!(group.prepare(&[0], stamp(14, 1), &n), Decision::Wait);
    group.have_no_room(&[1, 2], stamp(14, 1), &n);
    let start = group.merged(8, &[2, 1], [2, 1]);
    group.hear(&[0, 1, 2], &start);
    group.have_no_room(&[0, 1, 2], stamp(14, 1), &n);
    let m = body(&[], &[(15, 9)]);
    group.conclude(&[0, 1, 2], stamp(13, 1), 8, Outcome::Commit, &m);
    let start = group.merged(9, &[0, 1], [0, 1]);
    group.hear(&[0, 1, 2], &start);
}

/// CRC-32, as the example has it of each image that is too long to print.
fn check_sum(bytes: &[u8]) -> u32 {
    let next = |sum: u32| sum >> 1 ^ if sum & 1 == 1 { 0xedb8_8320 } else { 0 };
    !bytes.iter().fold(!0, |sum, byte| {
        (0..8).fold(sum ^ u32::from(*byte), |sum, _| next(sum))
    })
}

/// The images that the example prints: behind `box 0:` and so on, lines of bytes.
fn images(printed: &str) -> Vec<Vec<u8>> {
    let mut images: Vec<Vec<u8>> = Vec::new();
    for line in printed.lines() {
        let bytes: Result<Vec<u8>, _> = line
            .split(' ')
            .map(|byte| u8::from_str_radix(byte, 16))
            .collect();
        if line == format!("box {}:", images.len()) {
            images.push(Vec::new());
        } else if let (Some(image), Ok(bytes)) = (images.last_mut(), bytes) {
            image.extend(bytes);
        }
    }
    images
}

#[test]
fn the_tables_that_are_printed_are_those_of_the_second_program() {
    let images = images(&printed("box_images"));
    let told = told();
    let told: Vec<Vec<u8>> = (0..3).map(|box_number| told.image(box_number)).collect();
    assert_eq!(images, told);
    for (box_number, image) in images.iter().enumerate() {
        let (table, _) = Table::parse(image).expect("an image");
        assert_eq!(usize::from(table.box_number), box_number);
        assert_eq!((table.view, table.rows.len()), (6, 12));
    }
}

#[test]
fn the_full_tables_in_the_end_are_those_of_the_second_program() {
    let mut group = told();
    tell_of_room(&mut group);
    tell_of_the_dry_week(&mut group);
    let printed = printed("box_full");
    for box_number in 0..3 {
        let line = format!(
            "\nthe table of box {} has 511 rows, and its image the check sum {:08x}\n",
            box_number,
            check_sum(&group.image(box_number))
        );
        assert!(printed.contains(&line), "{}", line);
    }
}

// ---- A wrong example is noticed, by itself.

/// A file of the example, words that stand in it once, and what they are bent to.
const BENT: [(&str, &str, &str); 50] = [
    // a reply goes out though the table was not stored
    (
        "box.c",
        "fall_silent(box, \"the table could not be stored\");",
        "box_report(box->number, \"the table could not be stored\");",
    ),
    // nothing is stored at all
    ("box.c", "if (!store_table(box)) {", "if (false) {"),
    // a table is written over the newest one
    (
        "box.c",
        "uint64_t slot = sequence % 2;",
        "uint64_t slot = sequence % 1;",
    ),
    // a slot counts whatever its check sum is
    (
        "box.c",
        "return number_at(slot + 12, 4) == sum ? number_at(slot, 8) : 0;",
        "return sum != 1 ? number_at(slot, 8) : 0;",
    ),
    // a box that was started is made fresh
    (
        "box.c",
        "if (!is_blank(flash_slot(number, 0)) || !is_blank(flash_slot(number, 1))) {",
        "if (!is_blank(flash_slot(number, 0)) && !is_blank(flash_slot(number, 1))) {",
    ),
    // after a restart the numbers of slots go on from the older one
    (
        "box.c",
        "box->sequence = even > odd ? even : odd;",
        "box->sequence = even > odd || even == 0 ? odd : even;",
    ),
    // memory gone bad is answered for
    (
        "box.c",
        "fall_silent(box, \"the table in memory is damaged\");",
        "box_report(box->number, \"the table in memory is damaged\");",
    ),
    // a box falls silent without a report
    (
        "box.c",
        "box->answers = false;\n    box_report(box->number, why);",
        "box->answers = false;\n    (void)why;",
    ),
    // what was compared is not added up
    (
        "box.c",
        "box->rows_compared += SPRONDILU_COMPARED_OF(answer);",
        "",
    ),
    // what was compared last stands in the place of the sum
    (
        "box.c",
        "box->rows_compared += SPRONDILU_COMPARED_OF(answer);",
        "box->rows_compared = SPRONDILU_COMPARED_OF(answer);",
    ),
    // what was compared for a refused message is left out
    (
        "box.c",
        "box->rows_compared += SPRONDILU_COMPARED_OF(answer);",
        "box->rows_compared += SPRONDILU_NUMBER_OF(answer) == SPRONDILU_DONE ? SPRONDILU_COMPARED_OF(answer) : 0;",
    ),
    // the sum goes on from what stood in memory when power came back
    (
        "box.c",
        "box->sequence = even > odd ? even : odd;\n    box->rows_compared = 0;",
        "box->sequence = even > odd ? even : odd;",
    ),
    // rule 1: message 3 has another body than message 1
    (
        "box.c",
        "t->outcome, 1);\n    add_body(",
        "t->outcome, 1);\n    t->body.accesses[0].number++;\n    add_body(",
    ),
    // rule 2: a second count in a view in which a result was sent
    (
        "box.c",
        "if (t->stopped || t->result != 0) {",
        "if (t->stopped) {",
    ),
    // rule 3: replies of two views are counted together
    (
        "box.c",
        "t->view = record.view;\n        t->heard = 0;",
        "t->view = record.view;",
    ),
    // a final result is not taken apart
    (
        "box.c",
        "record.is_final ? (uint8_t)(state - FINAL) : state",
        "state",
    ),
    // rule 4: one confirmation is taken for f+1
    (
        "box.c",
        "how_many(t->confirmed) >= QUORUM",
        "how_many(t->confirmed) > 0",
    ),
    // a result that was declared is confirmed all the same
    (
        "box.c",
        "if (t->outcome != NO_OUTCOME || t->declared || t->result == 0) {",
        "if (t->outcome != NO_OUTCOME || t->result == 0) {",
    ),
    // rule 5: a commit although nothing was declared
    (
        "box.c",
        "} else if (t->declared) {",
        "} else if (t->result != 0) {",
    ),
    // rule 5: a commit is told to a box in an older view
    (
        "box.c",
        "return has_answered[box] && answered_in[box] >= t->view;",
        "return has_answered[box];",
    ),
    // rule 5: an abort after a commit
    (
        "box.c",
        "if (t->stopped || (t->outcome != NO_OUTCOME && t->outcome != outcome)) {",
        "if (t->stopped) {",
    ),
    // rule 6: one acceptance is taken for f+1
    (
        "box.c",
        "if (how_many(same) >= QUORUM) {",
        "if (how_many(same) > 0) {",
    ),
    // rule 6: message 4 names another view
    (
        "box.c",
        "*view = t->accepted_in[box];",
        "*view = t->accepted_in[box] - 1;",
    ),
    // rule 7: message 2 after an outcome
    (
        "box.c",
        "if (t->outcome != NO_OUTCOME || t->declared || t->result == 0) {",
        "if (t->declared || t->result == 0) {",
    ),
    // rule 7: replies are taken after an outcome
    (
        "box.c",
        "if (t->outcome != NO_OUTCOME) {\n        return; /* rule 7",
        "if (t->stopped) {\n        return; /* rule 7",
    ),
    // a refused transaction is committed
    (
        "box.c",
        "propose(t, t->result == SPRONDILU_OK ? SPRONDILU_OUTCOME_COMMIT : SPRONDILU_OUTCOME_ABORT);",
        "propose(t, SPRONDILU_OUTCOME_COMMIT);",
    ),
    // "recorded" is said as soon as OK was declared on the fast count
    (
        "box.c",
        "t->declared = SPRONDILU_KIND_OF(answer) == SPRONDILU_FAST;",
        "t->declared = SPRONDILU_KIND_OF(answer) == SPRONDILU_FAST;\n        \
         t->recorded = t->declared && t->result == SPRONDILU_OK;",
    ),
    // the same, on confirmations
    (
        "box.c",
        "t->declared = !t->stopped && how_many(t->confirmed) >= QUORUM;",
        "t->declared = !t->stopped && how_many(t->confirmed) >= QUORUM;\n    \
         t->recorded = t->declared && t->result == SPRONDILU_OK;",
    ),
    // "recorded" is said when the handset alone has stored the commit
    (
        "box.c",
        "if (!take_outcome(t, outcome)) {\n        return;\n    }",
        "if (!take_outcome(t, outcome)) {\n        return;\n    }\n    \
         t->recorded = outcome == SPRONDILU_OUTCOME_COMMIT;",
    ),
    // "recorded" is said at f acceptances
    (
        "box.c",
        "if (in_one && t->outcome == SPRONDILU_OUTCOME_COMMIT) {",
        "if (how_many(t->accepted) >= QUORUM - 1 && t->outcome == SPRONDILU_OUTCOME_COMMIT) {",
    ),
    // "recorded" is said at f+1 acceptances of two views
    (
        "box.c",
        "t->accepted[box] && t->accepted[other] && t->accepted_in[other] == t->accepted_in[box];",
        "t->accepted[box] && t->accepted[other];",
    ),
    // "in doubt" is said within the round that ends with "recorded"
    (
        "box.c",
        "(t->full[box] && reply == NULL);",
        "(t->full[box] && reply == NULL);\n    if (t->stopped) {\n        tell(t);\n    }",
    ),
    // "in doubt" is said of what f+1 boxes have accepted, because of another box
    (
        "box.c",
        "if (t->recorded) {",
        "if (t->recorded && !t->stopped) {",
    ),
    // "recorded" is said, and nobody hears that a rule was broken
    (
        "box.c",
        "now = t->stopped ? RECORDED_RULE_BROKEN : RECORDED;",
        "now = RECORDED;",
    ),
    // what was told is not stored, and is told again after a power cut
    ("box.c", "(void)handset_store(t);", ""),
    // a handset that lost power goes on with a stamp that was stopped
    (
        "box.c",
        "propose(t, t->outcome != NO_OUTCOME ? t->outcome : SPRONDILU_OUTCOME_ABORT);",
        "t->stopped = false;\n    \
         propose(t, t->outcome != NO_OUTCOME ? t->outcome : SPRONDILU_OUTCOME_ABORT);",
    ),
    // the grower never hears that an OK that was declared is not recorded yet
    (
        "box.c",
        "now = WILL_BE_RECORDED;",
        "now = NOTHING_YET;",
    ),
    // the grower never hears that a rule was broken
    ("box.c", "now = IN_DOUBT;", "now = NOTHING_YET;"),
    // the grower never hears that what was declared was given up
    ("box.c", "now = NOT_RECORDED;", "now = WILL_BE_RECORDED;"),
    // an outcome goes out that the handset has not stored
    (
        "box.c",
        "if (before == NO_OUTCOME && !handset_store(t)) {",
        "if (before == NO_OUTCOME && false) {",
    ),
    // a stamp goes out that the handset has not stored
    (
        "box.c",
        "t->begun = t->begun || handset_store(t);",
        "t->begun = handset_store(t) || true;",
    ),
    // a box without room asks for no view, though one makes room
    ("box.c", "if (view_makes_room(box)) {", "if (view_makes_room(box) && false) {"),
    // the grower never hears that the table is full
    ("box.c", "if (view_makes_room(box)) {", "if (view_makes_room(box) || true) {"),
    // one row that is left is taken for room
    (
        "box.c",
        "number_at(box->table + TABLE_ROWS, 4) >= QUORUM;",
        "number_at(box->table + TABLE_ROWS, 4) > 0;",
    ),
    // a transaction for which there is no room is not given up
    (
        "box.c",
        "bool too_few_have_room = how_many(t->full) > BOXES - QUORUM;",
        "bool too_few_have_room = how_many(t->full) > BOXES;",
    ),
    // it is given up before a view change can make room
    (
        "box.c",
        "if (t->waited >= ROUNDS_WITHOUT_ROOM) {",
        "if (t->waited > 0) {",
    ),
    // any reply numbered 0 is taken for a promise
    (
        "box.c",
        "if (is_done(reply, SPRONDILU_CHANGE_VIEW, box) && stamp_of(reply) == view) {",
        "if (reply != NULL && reply[SPRONDILU_REPLY_NUMBER] == SPRONDILU_DONE) {",
    ),
    // a view counts as begun because an earlier one was
    (
        "box.c",
        " && view_of(reply) == number_at(start_message + 1, 4);",
        ";",
    ),
    // an image that did not arrive is counted
    ("box.c", "images += length > 0;", "images++;"),
    // images are laid with the length of their buffers
    (
        "story.c",
        "size_t length = lost ? 0 : image_length(boxes[box].table);",
        "size_t length = lost ? 0 : SPRONDILU_TABLE_BYTES;",
    ),
];

/// A copy of the example in a folder of its own, in which these words have become others; compiled and run.
fn copied(name: &str, bend: Option<(&str, &str, &str)>) -> Output {
    let folder = made(name);
    fs::create_dir_all(&folder).expect("a folder");
    let mut sources = Vec::new();
    for path in SOURCES.iter().chain([&SHARED]) {
        let file = path.trim_start_matches("examples/");
        let mut source = text(path);
        if let Some((_, from, to)) = bend.filter(|(bent, _, _)| *bent == file) {
            assert_eq!(source.matches(from).count(), 1, "{}: {}", file, from);
            source = source.replace(from, to);
        }
        fs::write(folder.join(file), source).expect("a copy");
        if file.ends_with(".c") {
            sources.push(folder.join(file));
        }
    }
    played(&sources, &folder.join("bent"))
}

#[test]
fn a_bent_example_ends_with_another_number() {
    assert_done("an unbent copy", &copied("unbent", None));
    for (place, bend) in BENT.into_iter().enumerate() {
        let run = copied(&format!("bent_{}", place), Some(bend));
        let printed = String::from_utf8_lossy(&run.stdout);
        assert_eq!(run.status.code(), Some(1), "{}: {}", bend.2, printed);
        assert!(
            printed.ends_with("\nnot all as expected\n"),
            "{}: {}",
            bend.2,
            printed
        );
    }
}

// ---- The page.

/// "of five boxes three reply OK, OK, ABORT, ABORT is sent and confirmed by the box that said ABORT, and two late replies
/// say OK"
#[test]
fn a_count_after_message_2_comes_to_6_as_the_page_says() {
    let (ok, abort) = (PrepareResult::Ok, PrepareResult::Abort);
    let reply = |box_number, result, is_final| Counted {
        box_number,
        view: 0,
        result,
        is_final,
    };
    let (zero, one) = (reply(0, ok, false), reply(1, ok, false));
    let late = [reply(3, ok, false), reply(4, ok, false)];
    let first = [zero, one, reply(2, abort, false)];
    assert_eq!(reference::decide(5, &first), Ok(Decision::Slow(abort)));
    let confirmed = [zero, one, reply(2, abort, true), late[0], late[1]];
    assert_eq!(reference::decide(5, &confirmed), Err(Number::Contradiction));
    // confirmed by another box, it does not
    let confirmed = [reply(0, abort, true), one, first[2], late[0], late[1]];
    assert_eq!(reference::decide(5, &confirmed), Ok(Decision::Slow(abort)));
    let words = "confirmed by the box that said ABORT, and two late replies say OK";
    assert!(text(PAGE).contains(words), "{}", words);
}

/// The blocks of a page that are marked so, each with its lines.
fn blocks(page: &str, mark: &str) -> Vec<String> {
    let mut found = Vec::new();
    let mut open: Option<(bool, Vec<&str>)> = None;
    for line in page.lines() {
        match (line.strip_prefix("```"), open.take()) {
            (Some(word), None) => open = Some((word == mark, Vec::new())),
            (Some(_), Some((true, lines))) => found.push(lines.join("\n")),
            (Some(_), Some((false, _))) | (None, None) => {}
            (None, Some((wanted, mut lines))) => {
                lines.push(line);
                open = Some((wanted, lines));
            }
        }
    }
    assert!(open.is_none(), "a block has no end");
    found
}

/// Whether a block is a run of whole lines of a text.
fn stands_in(block: &str, text: &str) -> bool {
    !block.trim().is_empty() && format!("\n{}\n", text).contains(&format!("\n{}\n", block))
}

#[test]
fn the_page_quotes_lines_of_the_example() {
    let page = text(PAGE);
    let (source, shared) = (text("examples/box.c"), text(SHARED));
    let quoted = blocks(&page, "c");
    assert!(quoted.len() > 5, "only {} blocks of C", quoted.len());
    for block in quoted {
        let there = stands_in(&block, &source) || stands_in(&block, &shared);
        assert!(there, "not in the example:\n{}", block);
    }
    let printed = blocks(&page, "text");
    assert_eq!(printed.len(), 1);
    assert!(
        stands_in(&printed[0], &text("examples/box.out")),
        "not printed:\n{}",
        printed[0]
    );
    assert_eq!(
        page.matches("```").count(),
        2 * (blocks(&page, "c").len() + 1)
    );
}

#[test]
fn a_block_that_is_not_quoted_is_noticed() {
    let page = "a\n```c\nint x;\nint y;\n```\nb\n```text\nz\n```\n";
    assert_eq!(blocks(page, "c"), ["int x;\nint y;"]);
    assert_eq!(blocks(page, "text"), ["z"]);
    assert!(stands_in("int x;\nint y;", "int w;\nint x;\nint y;"));
    assert!(!stands_in("int x;\nint y;", "int x;\nint w;\nint y;"));
    assert!(!stands_in("nt x;", "int x;"));
    assert!(!stands_in("", "int x;\n\nint y;"));
}

/// The numbers of the C header and their names: the words before the colon in the comment above `#define SPRONDILU_.. 5`.
fn names() -> Vec<(u8, String)> {
    let header = text("include/sprondilu.h");
    let mut found = Vec::new();
    let mut name = "";
    for line in header.lines() {
        let words: Vec<&str> = line.split_whitespace().collect();
        if let Some(comment) = line.strip_prefix("/* ") {
            name = comment.split(':').next().unwrap_or("");
        } else if let ["#define", constant, value] = words[..] {
            let expected = format!("SPRONDILU_{}", name.to_uppercase().replace(' ', "_"));
            if let (true, Ok(number)) = (constant == expected, value.parse()) {
                found.push((number, name.to_string()));
            }
        }
    }
    found
}

#[test]
fn the_page_has_a_row_for_every_number() {
    let page = text(PAGE);
    let names = names();
    let numbers: Vec<u8> = names.iter().map(|(number, _)| *number).collect();
    assert!(numbers.iter().copied().eq(0..12), "{:?}", numbers);
    for (number, name) in names {
        let begins = format!("| {} | {} | ", number, name);
        let rows: Vec<&str> = page
            .lines()
            .filter(|row| row.starts_with(&begins))
            .collect();
        assert_eq!(rows.len(), 1, "rows that begin with {}", begins);
        let cells: Vec<&str> = rows[0].trim_matches('|').split('|').collect();
        assert_eq!(cells.len(), 4, "{}", rows[0]);
        assert!(cells.iter().all(|cell| !cell.trim().is_empty()));
    }
}

/// The line with which the page has the example compiled.
fn line_of_the_page() -> String {
    let page = text(PAGE);
    let lines: Vec<&str> = page
        .lines()
        .filter_map(|line| line.strip_prefix("    "))
        .filter(|line| line.starts_with("cc "))
        .collect();
    assert_eq!(lines.len(), 1, "{:?}", lines);
    lines[0].to_string()
}

#[test]
fn the_line_of_the_page_compiles_the_example() {
    let line = line_of_the_page();
    let said = format!(" *   {}\n", line);
    assert!(text("examples/story.c").contains(&said), "{}", said);
    // The archive may lie elsewhere than where `tools/library` writes it; what is made here goes where tests make things.
    let program = made("box_of_the_page");
    let _ = fs::remove_file(&program);
    let mut replaced = 0;
    let words = line.split(' ').skip(1).map(|word| match word {
        "target/staticlib/libsprondilu.a" => {
            replaced += 1;
            PathBuf::from(env!("SPRONDILU_ARCHIVE"))
        }
        "target/box" => {
            replaced += 1;
            program.clone()
        }
        other => PathBuf::from(other),
    });
    let words: Vec<PathBuf> = words.collect();
    assert_eq!(replaced, 2, "{}", line);
    let compiled = Command::new("cc").args(words).current_dir(top("")).output();
    let compiled = compiled.expect("a C compiler");
    assert_done("cc", &compiled);
    assert!(compiled.stderr.is_empty(), "{:?}", compiled);
    let run = Command::new(&program).output().expect("a program");
    assert_done("the example", &run);
    assert_eq!(
        String::from_utf8_lossy(&run.stdout),
        text("examples/box.out")
    );
}

// ---- The shape of the example.

#[test]
fn a_function_of_the_example_has_under_forty_lines() {
    let mut seen = 0;
    for path in SOURCES {
        let source = text(path);
        let mut began = 0;
        for (place, line) in source.lines().enumerate() {
            if line.ends_with(')') && !line.starts_with(&[' ', '#', '/', '_'][..]) {
                began = place;
            } else if line == "}" {
                let lines = place - began + 1;
                assert!(lines < 40, "{}:{}: {} lines", path, began + 1, lines);
                seen += 1;
            }
        }
        for word in ["malloc", "calloc", "alloca"] {
            assert!(!source.contains(word), "{}: {}", path, word);
        }
    }
    assert!(seen > 20, "only {} functions were found", seen);
}
