//! Disks that are full or fail, and runs that are cut short anywhere: a table file is the old one whole or the new one whole.

#[path = "../common/mod.rs"]
mod common;
mod full;
mod limits;
mod meddled;
mod shim;
mod spoilt;

use common::boxes::{long_table, settled};
use common::{answered, run, Folder};
use samples::message as make;

/// A table file, a message that changes it, and what is right then.
pub struct Case {
    pub folder: Folder,
    pub old: Vec<u8>,
    pub new: Vec<u8>,
    pub message: Vec<u8>,
    pub reply: Vec<u8>,
}

/// A box whose view began with so many rows, and a message that adds one. Up to 510 start rows there is room for it.
pub fn adding(rows: u64) -> Case {
    let row = samples::Row {
        stamp: 9,
        ..samples::row_of_the_paper(0)
    };
    let begun = settled(&long_table(rows), 3);
    case(begun, make::propose_prepare(&row))
}

pub fn case(old: Vec<u8>, message: Vec<u8>) -> Case {
    let (number, new, reply) = answered(&old, &message);
    assert_eq!(number, 0);
    let case = Case {
        folder: Folder::new(),
        old,
        new,
        message,
        reply,
    };
    case.begin();
    case
}

impl Case {
    /// The files as they were before any run: also what a run left behind is gone.
    pub fn begin(&self) {
        for name in self.folder.names() {
            self.folder.remove(&name);
        }
        self.folder.put("t", &self.old);
        self.folder.put("m", &self.message);
    }

    /// Whether the table is the new one. If it is neither that nor the old one, the test ends here.
    #[track_caller]
    pub fn is_new(&self, what: &str) -> bool {
        let found = self.folder.bytes("t");
        let whole = found == self.old || found == self.new;
        assert!(
            whole,
            "{}: a table of {} bytes: {:02x?}",
            what,
            found.len(),
            found
        );
        found == self.new
    }

    /// The reply that was written, which is the right one, if there is one at all.
    #[track_caller]
    pub fn has_reply(&self, what: &str) -> bool {
        let has = self.folder.has("r");
        assert!(!has || self.folder.bytes("r") == self.reply, "{}", what);
        has
    }

    /// The same message again, with nothing in the way: the table is the new one, and the reply is given; but for a view that was
    /// stored already, which is an old one then.
    #[track_caller]
    pub fn goes_on(&self, what: &str) {
        let was_new = self.is_new(what);
        let ran = run(&self.folder, "answer t m --reply r --replace");
        assert!(self.is_new(what), "{}: {:?}", what, ran);
        if was_new && matches!(self.message[0], 5 | 6) {
            ran.refused(10);
            return;
        }
        ran.done();
        assert!(self.has_reply(what), "{}", what);
    }
}
