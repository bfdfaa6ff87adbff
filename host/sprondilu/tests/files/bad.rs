//! Files that cannot be read, or are not what they should be.

use crate::common::boxes::long_table;
use crate::common::ran::{not_tried, refused};
use crate::common::{answered, fresh, Folder};
use samples::{message as make, Access, Row, TABLE_BYTES};
use std::fs::{self, File};
use std::os::unix::fs::symlink;

/// A folder with a good file of each kind.
pub fn good_files() -> Folder {
    let folder = Folder::new();
    let message = make::propose_prepare(&samples::row_of_the_paper(0));
    let (_, table, reply) = answered(&fresh(3, 0), &message);
    let promised = |table: &[u8]| answered(table, &make::change_view(1)).1;
    folder.put("one", &promised(&fresh(3, 1)));
    folder.put("zero", &promised(&table));
    folder.put("t", &table);
    folder.put("m", &message);
    folder.put("r", &reply);
    folder
}

/// Every command, with a place for each file that it reads, and the number for a file that is none of its kind.
const READERS: [(&str, u8); 12] = [
    ("show FILE", 2),
    ("show --message FILE", 3),
    ("show --reply FILE", 3),
    ("check FILE", 2),
    ("check --message FILE", 3),
    ("check --reply FILE", 3),
    ("message start-view 1 FILE --out new", 2),
    ("answer FILE m --reply new", 2),
    ("answer t FILE --reply new", 3),
    ("merge --view 1 --out new FILE one", 2),
    ("merge --view 1 --out new zero FILE", 2),
    ("count --n 3 r FILE", 3),
];

/// Runs every reader with this name for a file, which none of them can read.
fn unreadable(folder: &Folder, name: &str, words: &str) {
    for (line, _) in READERS {
        not_tried(folder, &line.replace("FILE", name), words);
    }
}

#[test]
fn what_is_no_file_is_not_read() {
    let folder = good_files();
    fs::create_dir(folder.at("folder")).expect("a folder");
    symlink("nowhere", folder.at("dangling")).expect("a link");
    symlink("loop", folder.at("loop")).expect("a link");
    unreadable(&folder, "missing", "cannot read missing");
    unreadable(&folder, "folder", "cannot read folder: it is a folder");
    unreadable(&folder, "t/x", "cannot read t/x");
    unreadable(&folder, "dangling", "cannot read dangling");
    unreadable(&folder, "loop", "cannot read loop");
}

/// A file without end, and one of more bytes than any file here has: neither is read to its end.
#[test]
fn endless_and_huge_files_are_refused() {
    let folder = good_files();
    for (line, _) in READERS {
        // A table file has to be one that another can take the place of.
        let words = if line.starts_with("answer FILE") {
            "no file"
        } else {
            "has more than"
        };
        not_tried(&folder, &line.replace("FILE", "/dev/zero"), words);
    }
    // Nobody reads this one, the test neither.
    let huge = File::create(folder.at("huge")).expect("a file");
    huge.set_len(1 << 40).expect("a file with a hole in it");
    for (line, _) in READERS {
        let output = crate::common::run(&folder, &line.replace("FILE", "huge"));
        output.not_tried("huge has more than");
    }
    assert!(!folder.has("new"));
}

/// A refusal of `answer` is replied where a reply is asked for; of the others there is no new file.
fn refused_here(folder: &Folder, line: &str, number: u8) -> Option<u64> {
    let line = line.replace(" --reply new", "");
    refused(folder, &line, number).1
}

#[test]
fn empty_files_are_refused() {
    let folder = good_files();
    folder.put("empty", b"");
    for (line, number) in READERS {
        let byte = refused_here(&folder, &line.replace("FILE", "empty"), number);
        assert_eq!(byte, Some(0), "{}", line);
    }
}

#[test]
fn files_a_byte_too_short_are_refused() {
    let folder = good_files();
    for (line, number) in READERS {
        let name = match number {
            _ if line.contains("--reply FILE") || line.starts_with("count") => "r",
            2 => "zero",
            _ => "m",
        };
        let bytes = folder.bytes(name);
        folder.put("short", &bytes[..bytes.len() - 1]);
        let byte = refused_here(&folder, &line.replace("FILE", "short"), number);
        assert_eq!(byte, Some(bytes.len() as u64 - 1), "{}", line);
    }
}

/// In a longer buffer the zeros behind a table that was cut could be taken for its end. The file is judged, not the buffer.
#[test]
fn a_table_that_ends_in_zeros_is_refused_when_they_are_cut_off() {
    let folder = good_files();
    let row = Row {
        writes: vec![Access {
            register: 0,
            number: 0,
        }],
        ..samples::row_of_the_paper(1)
    };
    let image = answered(&fresh(3, 0), &make::propose_prepare(&row)).1;
    assert_eq!((image.len(), &image[48..]), (57, &[0; 9][..]));
    for cut in 1..=9 {
        let length = image.len() - cut;
        let mut healed = image[..length].to_vec();
        healed.resize(TABLE_BYTES, 0);
        assert_eq!(boundary::valid(&healed), Ok(57));
        folder.put("cut", &image[..length]);
        for (line, number) in READERS.iter().filter(|(_, number)| *number == 2) {
            let byte = refused_here(&folder, &line.replace("FILE", "cut"), *number);
            assert_eq!(byte, Some(length as u64), "{}", line);
        }
    }
}

/// Every file cut anywhere is refused, and answers leave it alone.
#[test]
fn a_table_cut_anywhere_is_refused() {
    let folder = good_files();
    let image = long_table(3);
    for length in 0..image.len() {
        folder.put("t", &image[..length]);
        let byte = refused_here(&folder, "answer t m", 2);
        assert_eq!(byte, Some(length as u64));
    }
}
