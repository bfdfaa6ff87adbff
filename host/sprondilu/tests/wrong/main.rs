//! What the program finds wrong with bytes: exactly where the library refuses, and at the byte that was damaged.

#[path = "../common/mod.rs"]
mod common;
mod message;
mod reasons;
mod reply;
mod table;

/// How often each verdict was met, so that no comparison holds for want of a case.
#[derive(Default, Debug)]
struct Met {
    good: u64,
    bad: u64,
}

impl Met {
    fn count(&mut self, is_good: bool) {
        if is_good {
            self.good += 1;
        } else {
            self.bad += 1;
        }
    }

    #[track_caller]
    fn assert_at_least(&self, good: u64, bad: u64) {
        assert!(self.good >= good && self.bad >= bad, "{:?}", self);
    }
}
