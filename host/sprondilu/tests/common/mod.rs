//! What the tests of the program share: folders that go again, runs of the program as a user types them, and readers of what it
//! prints.

// No test needs all of it.
#![allow(dead_code, unused_imports)]

pub mod boxes;
pub mod json;
pub mod ran;

pub use boxes::History;
pub use ran::{program, run, run_words, Ran};

use std::collections::BTreeMap;
use std::fs;
use std::os::unix::fs::{FileTypeExt, MetadataExt};
use std::path::{Path, PathBuf};
use std::sync::atomic::{AtomicUsize, Ordering};

/// A folder of one test, which goes with it.
pub struct Folder {
    path: PathBuf,
}

impl Folder {
    pub fn new() -> Folder {
        Folder::below(Path::new(env!("CARGO_TARGET_TMPDIR")))
    }

    /// A folder in this one. Other processes and other tests of this one have other names.
    pub fn below(place: &Path) -> Folder {
        static MADE: AtomicUsize = AtomicUsize::new(0);
        let turn = MADE.fetch_add(1, Ordering::Relaxed);
        let path = place.join(format!("sprondilu-{}-{}", std::process::id(), turn));
        let _ = fs::remove_dir_all(&path);
        fs::create_dir_all(&path).expect("a folder for the test");
        let path = path.canonicalize().expect("the folder");
        Folder { path }
    }

    pub fn path(&self) -> &Path {
        &self.path
    }

    pub fn at(&self, name: &str) -> PathBuf {
        self.path.join(name)
    }

    pub fn put(&self, name: &str, bytes: &[u8]) {
        fs::write(self.at(name), bytes).expect("a file that is written");
    }

    pub fn bytes(&self, name: &str) -> Vec<u8> {
        fs::read(self.at(name)).expect("a file that is read")
    }

    pub fn has(&self, name: &str) -> bool {
        fs::symlink_metadata(self.at(name)).is_ok()
    }

    pub fn remove(&self, name: &str) {
        fs::remove_file(self.at(name)).expect("a file to remove");
    }

    pub fn inode(&self, name: &str) -> u64 {
        fs::metadata(self.at(name)).expect("a file").ino()
    }

    /// The names of all that is in the folder, hidden or not.
    pub fn names(&self) -> Vec<String> {
        self.state().into_keys().collect()
    }

    /// Everything in the folder: each file's bytes, and whatever else shows that it was touched.
    pub fn state(&self) -> BTreeMap<String, Touched> {
        let entries = fs::read_dir(&self.path).expect("the folder");
        entries
            .map(|entry| {
                let entry = entry.expect("an entry");
                let name = entry.file_name().to_string_lossy().into_owned();
                (name, Touched::of(&entry.path()))
            })
            .collect()
    }
}

impl Drop for Folder {
    fn drop(&mut self) {
        let _ = fs::remove_dir_all(&self.path);
    }
}

/// What would be different in a file that was written or put in another's place.
#[derive(Clone, Debug, PartialEq, Eq)]
pub struct Touched {
    bytes: Option<Vec<u8>>,
    inode: u64,
    mode: u32,
    changed: (i64, i64),
}

impl Touched {
    fn of(path: &Path) -> Touched {
        let about = fs::symlink_metadata(path).expect("what is said of a file");
        // Whoever reads a pipe waits for its other end.
        let bytes = Some(path).filter(|_| !about.file_type().is_fifo());
        Touched {
            bytes: bytes.and_then(|path| fs::read(path).ok()),
            inode: about.ino(),
            mode: about.mode(),
            changed: (about.mtime(), about.mtime_nsec()),
        }
    }
}

/// The names of document 01, under their numbers.
pub const NAMES: [&str; 12] = [
    "done",
    "small buffer",
    "bad table",
    "bad message",
    "changing",
    "other body",
    "contradiction",
    "full",
    "unknown",
    "other view",
    "old view",
    "wrong tables",
];

/// What a refusal says if the program found no reason. No test may see it.
pub const NO_REASON: &str = "does not see";

pub fn hex(bytes: &[u8]) -> String {
    bytes.iter().map(|byte| format!("{:02x}", byte)).collect()
}

/// The fresh image of a box, from the second program.
pub fn fresh(n: u8, box_number: u8) -> Vec<u8> {
    reference::Table::fresh(n, box_number)
        .expect("a box of the group")
        .image()
}

/// What the second program makes of a table file and a message: the number, the file's bytes then, and the reply. The file holds
/// its image alone, or more, which stays.
pub fn answered(file: &[u8], message: &[u8]) -> (u8, Vec<u8>, Vec<u8>) {
    let mut reply = vec![0; 24];
    let old = match reference::Table::parse(file) {
        Some((_, length)) => length,
        None => {
            reply[0] = 2;
            return (2, file.to_vec(), reply);
        }
    };
    let mut buffer = file.to_vec();
    buffer.resize(file.len().max(samples::TABLE_BYTES), 0);
    let number = reference::answer(&mut buffer, message, &mut reply);
    let new = reference::Table::parse(&buffer).expect("a table").1;
    // Without more behind it the file is as long as its image; with more, as long as it was, or longer if the image is.
    buffer.truncate(if file.len() == old {
        new
    } else {
        file.len().max(new)
    });
    (number, buffer, reply)
}
