//! Table files with more in them than the table: dumps of a box's buffer.

use crate::common::boxes::{long_table, settled};
use crate::common::{answered, fresh, run, Folder, History};
use samples::{message as make, Dice, TABLE_BYTES};

/// Has a message answered by the file and by the second program, and holds the file to document 01: "bytes past the longer of the
/// old and new image are unchanged; if the image shrank, the bytes given up are zero".
fn answered_in(folder: &Folder, message: &[u8]) {
    let before = folder.bytes("t");
    let (number, after, reply) = answered(&before, message);
    folder.put("m", message);
    let ran = run(folder, "answer t m --reply r --replace");
    assert_eq!(ran.status, Some(i32::from(number != 0)), "{:?}", ran);
    let found = folder.bytes("t");
    assert!(
        found == after,
        "{:?}: {} bytes and {}",
        ran,
        found.len(),
        after.len()
    );
    assert_eq!(folder.bytes("r"), reply);
    let image = |bytes: &[u8]| boundary::valid(bytes).expect("an image");
    let (old, new) = (image(&before), image(&found));
    let longer = old.max(new);
    if before.len() > old {
        assert_eq!(found.len(), before.len().max(new));
        assert_eq!(found.get(longer..), before.get(longer..).or(Some(&[])));
        assert!(found[new..longer.min(found.len())]
            .iter()
            .all(|byte| *byte == 0));
    } else {
        assert_eq!(found.len(), new);
    }
}

#[test]
fn what_stands_behind_a_table_stays_as_the_paper_says() {
    let mut dice = Dice::seeded(501);
    let lengths = [
        0,
        1,
        3,
        33,
        34,
        100,
        2_000,
        TABLE_BYTES - 25,
        TABLE_BYTES - 24,
        60_000,
    ];
    for behind in lengths {
        let folder = Folder::new();
        let image = long_table(3);
        folder.put("t", &[image, dice.bytes(behind)].concat());
        let row = samples::row_of_the_paper(0);
        let new = samples::Row { stamp: 9, ..row };
        answered_in(&folder, &make::propose_prepare(&new));
        answered_in(&folder, &make::finalise_prepare(9, 0, (1, 0)));
        answered_in(&folder, &make::read(9, 5));
        answered_in(&folder, &make::read(9, 64));
        answered_in(&folder, &make::change_view(3));
        // The table becomes a shorter one, and then a longer one again.
        answered_in(&folder, &make::start_view(3, &settled(&fresh(3, 0), 3)));
        answered_in(&folder, &make::propose_prepare(&new));
        answered_in(&folder, &make::start_view(4, &settled(&long_table(500), 4)));
        assert_eq!(folder.names(), ["m", "r", "t"]);
    }
}

#[test]
fn histories_in_dumps_are_those_of_the_second_program() {
    let mut dice = Dice::seeded(502);
    for seed in 1..12 {
        let folder = Folder::new();
        let mut history = History::seeded(seed);
        let behind = dice.one_of(&[1, 40, 400, TABLE_BYTES - 24, TABLE_BYTES]);
        folder.put("t", &[history.image.clone(), dice.bytes(behind)].concat());
        for _ in 0..12 {
            let message = history.message();
            history.answer(&message);
            answered_in(&folder, &message);
        }
    }
}

/// The longest file that is read, and one byte more.
#[test]
fn a_dump_of_16_mebibytes_is_taken_and_one_byte_more_is_not() {
    let folder = Folder::new();
    let mut bytes = long_table(3);
    bytes.resize(16 * 1024 * 1024, 7);
    folder.put("t", &bytes);
    answered_in(&folder, &make::change_view(3));
    bytes.push(7);
    folder.put("t", &bytes);
    run(&folder, "answer t m").not_tried("t has more than 16777216 bytes");
    assert!(folder.bytes("t") == bytes);
}
