//! A whole small history of a group of five, through the three calls alone. Every number and every byte that matters is
//! worked out from the paper by hand, apart from the second program. f is 2, so a quorum is 3 boxes, the fast count 4 and
//! the agreement count 2.

use samples::TABLE_BYTES;

/// What a transaction is in every message about it: its stamp, then its counts and its body.
struct Transaction {
    stamp: [u8; 8],
    accesses: &'static [u8],
}

/// Writes 7 to register 5. It will commit in view 0.
const T1: Transaction = Transaction {
    stamp: [0, 0, 0, 0, 0, 1, 0, 1],
    accesses: &[0, 1, 5, 0, 0, 0, 0, 0, 0, 0, 7],
};

/// Read register 5 when nothing was written there, and writes 9 to register 6. It clashes with T1, which is earlier.
const T2: Transaction = Transaction {
    stamp: [0, 0, 0, 0, 0, 2, 0, 1],
    accesses: &[1, 1, 5, 0, 0, 0, 0, 0, 0, 0, 0, 6, 0, 0, 0, 0, 0, 0, 0, 9],
};

/// Read register 5 as T1 wrote it, and writes 8 there. It will commit in view 1.
const T3: Transaction = Transaction {
    stamp: [0, 0, 0, 0, 0, 2, 0, 2],
    accesses: &[1, 1, 5, 0, 0, 0, 0, 0, 1, 0, 1, 5, 0, 0, 0, 0, 0, 0, 0, 8],
};

const NO_STAMP: [u8; 8] = [0; 8];

/// Prepare bytes.
const OK: u8 = 1;
const ABORT: u8 = 2;
const ABSTAIN: u8 = 3;
const FINAL_OK: u8 = 5;

/// Outcome bytes.
const COMMIT_NOTED: u8 = 1;
const COMMIT_DONE: u8 = 3;

fn propose_prepare(t: &Transaction) -> Vec<u8> {
    [&[1], &t.stamp[..], t.accesses].concat()
}

/// Result OK, which has no retry stamp.
fn finalise_ok(t: &Transaction, view: u8) -> Vec<u8> {
    [&[2], &t.stamp[..], &[0, 0, 0, view, 1], &NO_STAMP].concat()
}

fn propose_commit(t: &Transaction) -> Vec<u8> {
    [&[3], &t.stamp[..], &[1], t.accesses].concat()
}

fn finalise_commit(t: &Transaction, view: u8) -> Vec<u8> {
    [&[4], &t.stamp[..], &[0, 0, 0, view, 1]].concat()
}

fn read(stamp: &[u8; 8], register: u8) -> Vec<u8> {
    [&[7], &stamp[..], &[register]].concat()
}

/// "number 0, kind, box, state byte [..], last normal view after the call 4, stamp 8, value 8"
fn reply(kind: u8, box_number: u8, state: u8, view: u8, stamp: &[u8; 8], value: u8) -> Vec<u8> {
    let head = [0, kind, box_number, state, 0, 0, 0, view];
    [&head, &stamp[..], &[0, 0, 0, 0, 0, 0, 0, value]].concat()
}

/// "the reply has the number in byte 0 and 23 zero bytes"
fn refusal(number: u8) -> Vec<u8> {
    [&[number][..], &[0; 23]].concat()
}

/// The five table buffers, side by side.
struct Five {
    tables: Vec<u8>,
}

impl Five {
    fn table(&self, box_number: u8) -> &[u8] {
        &self.tables[TABLE_BYTES * usize::from(box_number)..][..TABLE_BYTES]
    }

    /// The reply of a box, with the number in its first byte. No other box's table buffer changes.
    fn ask(&mut self, box_number: u8, message: &[u8]) -> Vec<u8> {
        let before = Five {
            tables: self.tables.clone(),
        };
        let mut reply = [0xee; 30];
        let number = trial::arrive(&mut self.tables, box_number, message, &mut reply);
        assert_eq!(number, reply[0]);
        assert_eq!(reply[24..], [0xee; 6]);
        for other in (0..5).filter(|other| *other != box_number) {
            let same = self.table(other) == before.table(other);
            assert!(same, "a message to box {} changes {}", box_number, other);
        }
        reply[..24].to_vec()
    }

    /// That each of these boxes answers a message about a transaction with this state byte, in this view.
    fn all_answer(&mut self, boxes: &[u8], message: &[u8], state: u8, view: u8, t: &Transaction) {
        for box_number in boxes {
            let expected = reply(message[0], *box_number, state, view, &t.stamp, 0);
            assert_eq!(self.ask(*box_number, message), expected);
        }
    }

    /// The number, the run and the output of a merge for view 1.
    fn merge(&self, boxes: &[u8]) -> (u8, Vec<u8>, Vec<u8>) {
        let mut run = vec![0xee; TABLE_BYTES * boxes.len()];
        let mut out = vec![0xee; TABLE_BYTES];
        let number = trial::merge_boxes(&self.tables, boxes, 1, &mut run, &mut out);
        (number, run, out)
    }
}

fn is_dirt(bytes: &[u8]) -> bool {
    bytes.iter().all(|byte| *byte == 0xee)
}

/// "Fresh box 0 of 3, whole: 01 00 03 00, sixteen 00, 00 00 00 18"; here box 0 to 4 of 5. "A fresh table writes its 24 bytes
/// only."
fn started() -> Five {
    let mut five = Five {
        tables: vec![0xee; 5 * TABLE_BYTES],
    };
    assert_eq!(trial::start_fresh(&mut five.tables, 5), 0);
    for box_number in 0..5 {
        let fresh = [&[1, box_number, 5, 0][..], &[0; 16], &[0, 0, 0, 0x18]].concat();
        assert_eq!(five.table(box_number)[..24], fresh);
        assert!(is_dirt(&five.table(box_number)[24..]));
    }
    five
}

/// Four boxes agree on OK: that is the fast count, so OK is final at once, and T1 commits. Box 3 only hears that it is to
/// commit, and box 4 hears nothing at all.
fn fast_commit(five: &mut Five) {
    five.all_answer(&[0, 1, 2, 3], &propose_prepare(&T1), OK, 0, &T1);
    five.all_answer(&[0, 1, 2, 3], &propose_commit(&T1), COMMIT_NOTED, 0, &T1);
    five.all_answer(&[0, 1, 2], &finalise_commit(&T1, 0), COMMIT_DONE, 0, &T1);
    let fresh = [&[1, 4, 5, 0][..], &[0; 16], &[0, 0, 0, 0x18]].concat();
    assert_eq!(five.table(4)[..24], fresh);
}

/// T2 read register 5 at version 0, and T1 wrote it at 65,537: a box where T1 is committed answers ABORT, one where it is
/// prepared ABSTAIN, and one that never heard of it OK. That is no answer for anybody, and T2 stays open. T3 read
/// what T1 wrote and clashes with nothing, but only two boxes hear of it.
fn clash(five: &mut Five) {
    five.all_answer(&[2], &propose_prepare(&T2), ABORT, 0, &T2);
    five.all_answer(&[3], &propose_prepare(&T2), ABSTAIN, 0, &T2);
    five.all_answer(&[4], &propose_prepare(&T2), OK, 0, &T2);
    five.all_answer(&[2, 3], &propose_prepare(&T3), OK, 0, &T3);
}

/// Boxes 2, 3 and 4 promise view 1. For message 5 the reply's stamp is the promised view. While box 4 has not promised,
/// "mode 0" makes the tables wrong: 11. The images are laid out by then, and the output stays.
fn promise(five: &mut Five) {
    let promised = [0, 0, 0, 0, 0, 0, 0, 1];
    for box_number in [2, 3] {
        let answered = five.ask(box_number, &[5, 0, 0, 0, 1]);
        assert_eq!(answered, reply(5, box_number, 0, 0, &promised, 0));
    }
    let (number, run, out) = five.merge(&[2, 3, 4]);
    assert_eq!(number, 11);
    assert_eq!(run[..4], [1, 2, 5, 1]);
    assert!(is_dirt(&out));
    let answered = five.ask(4, &[5, 0, 0, 0, 1]);
    assert_eq!(answered, reply(5, 4, 0, 0, &promised, 0));
    // "messages 1 to 4 and 7 while mode is 1"
    assert_eq!(five.ask(4, &propose_prepare(&T1)), refusal(4));
    assert_eq!(five.ask(4, &read(&T3.stamp, 5)), refusal(4));
}

/// What the merge of boxes 2, 3 and 4 settles, and why:
/// - T1 is tentative OK in two tables, the agreement count, with a commit: "Agreed OK with an outcome stays OK". "Outcome:
///   any commit or abort held becomes done."
/// - T3 is tentative OK in two tables without an outcome: checked, before T2, against T1 alone. It saw T1's write: OK.
/// - T2 is ABORT, ABSTAIN and OK in one table each: open, and checked last. T1 is committed now: ABORT.
///
/// "The image is normal, view v, box v mod n, start rows equal to rows." Three rows begin at byte 24, so the bodies of 9, 18
/// and 18 bytes begin at 96, 105 and 123, and the whole has 141 bytes. The last 8 bytes of a row say where its body
/// begins, how many reads and writes that has, the prepare byte and the outcome byte.
const MERGED: [u8; 141] = [
    0x01, 0x01, 0x05, 0x00, 0x00, 0x00, 0x00, 0x03, // format 1, box 1 of 5, normal; 3 rows
    0x00, 0x00, 0x00, 0x01, 0x00, 0x00, 0x00, 0x01, // view 1, promised 1
    0x00, 0x00, 0x00, 0x03, 0x00, 0x00, 0x00, 0x8d, // 3 start rows, 141 bytes
    0x00, 0x00, 0x00, 0x00, 0x00, 0x01, 0x00, 0x01, // T1
    0x00, 0x00, 0x00, 0x00, 0x00, 0x00, 0x00, 0x00, // no retry stamp
    0x00, 0x00, 0x00, 0x60, 0x00, 0x01, 0x05, 0x03, // at 96, 0 and 1; final OK, done
    0x00, 0x00, 0x00, 0x00, 0x00, 0x02, 0x00, 0x01, // T2
    0x00, 0x00, 0x00, 0x00, 0x00, 0x00, 0x00, 0x00, // no retry stamp
    0x00, 0x00, 0x00, 0x69, 0x01, 0x01, 0x06, 0x00, // at 105, 1 and 1; final ABORT
    0x00, 0x00, 0x00, 0x00, 0x00, 0x02, 0x00, 0x02, // T3
    0x00, 0x00, 0x00, 0x00, 0x00, 0x00, 0x00, 0x00, // no retry stamp
    0x00, 0x00, 0x00, 0x7b, 0x01, 0x01, 0x05, 0x00, // at 123, 1 and 1; final OK
    0x05, 0x00, 0x00, 0x00, 0x00, 0x00, 0x00, 0x00, 0x07, // T1 writes 7 to register 5
    0x05, 0x00, 0x00, 0x00, 0x00, 0x00, 0x00, 0x00, 0x00, // T2 read it at version 0
    0x06, 0x00, 0x00, 0x00, 0x00, 0x00, 0x00, 0x00, 0x09, // and writes 9 to register 6
    0x05, 0x00, 0x00, 0x00, 0x00, 0x00, 0x01, 0x00, 0x01, // T3 read it at version 65,537
    0x05, 0x00, 0x00, 0x00, 0x00, 0x00, 0x00, 0x00, 0x08, // and writes 8 to it
];

/// The images in the run have three rows, three and one: 141 bytes, 141 and 66.
fn merged(five: &Five) -> Vec<u8> {
    let tables = five.tables.clone();
    let (number, run, out) = five.merge(&[2, 3, 4]);
    assert_eq!(number, 0);
    assert!(five.tables == tables, "a merge changes no table");
    for (box_number, place) in [(2, 0), (3, 141), (4, 282)] {
        assert_eq!(run[place..][..4], [1, box_number, 5, 1]);
    }
    assert!(is_dirt(&run[282 + 66..]));
    assert_eq!(out[..141], MERGED);
    assert!(is_dirt(&out[141..]));
    out[..141].to_vec()
}

/// "The box takes it whole, keeping its own box number": every box, also those that promised nothing. For message 6 the
/// reply's stamp is zero, and its view already the new one.
fn start_view(five: &mut Five, image: &[u8]) {
    let message = [&[6, 0, 0, 0, 1], image].concat();
    for box_number in 0..5 {
        let answered = five.ask(box_number, &message);
        assert_eq!(answered, reply(6, box_number, 0, 1, &NO_STAMP, 0));
        let mut taken = MERGED;
        taken[1] = box_number;
        assert_eq!(five.table(box_number)[..141], taken);
        assert!(is_dirt(&five.table(box_number)[141..]));
        // "6 with v below promised or at or below view"
        assert_eq!(five.ask(box_number, &message), refusal(10));
    }
}

/// Box 4 never heard of T1 in view 0, and reads what it wrote. T2 has written nothing, and T3 nothing yet.
fn read_in_view_1(five: &mut Five) {
    let found = five.ask(4, &read(&T3.stamp, 5));
    assert_eq!(found, reply(7, 4, 0, 1, &T1.stamp, 7));
    let nothing = five.ask(4, &read(&T3.stamp, 6));
    assert_eq!(nothing, reply(7, 4, 0, 1, &NO_STAMP, 0));
    let before_t1 = [0, 0, 0, 0, 0, 1, 0, 0];
    let nothing = five.ask(4, &read(&before_t1, 5));
    assert_eq!(nothing, reply(7, 4, 0, 1, &NO_STAMP, 0));
}

/// Three boxes answer T3 with final OK. They are too few for the fast count, so OK is finalised in them first, in view 1:
/// view 0 is over. Then T3 commits, and a read finds it where that has been heard.
fn slow_commit(five: &mut Five) {
    five.all_answer(&[0, 1, 2], &propose_prepare(&T3), FINAL_OK, 1, &T3);
    assert_eq!(five.ask(0, &finalise_ok(&T3, 0)), refusal(9));
    five.all_answer(&[0, 1, 2], &finalise_ok(&T3, 1), FINAL_OK, 1, &T3);
    five.all_answer(&[0, 1, 2], &propose_commit(&T3), COMMIT_NOTED, 1, &T3);
    five.all_answer(&[0, 1, 2], &finalise_commit(&T3, 1), COMMIT_DONE, 1, &T3);
    let found = five.ask(2, &read(&T3.stamp, 5));
    assert_eq!(found, reply(7, 2, 0, 1, &T3.stamp, 8));
    let earlier = five.ask(3, &read(&T3.stamp, 5));
    assert_eq!(earlier, reply(7, 3, 0, 1, &T1.stamp, 7));
}

#[test]
fn a_group_of_five_commits_clashes_changes_view_and_reads() {
    let mut five = started();
    fast_commit(&mut five);
    clash(&mut five);
    promise(&mut five);
    let image = merged(&five);
    start_view(&mut five, &image);
    read_in_view_1(&mut five);
    slow_commit(&mut five);
}
