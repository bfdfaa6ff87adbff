//! What is wrong with bytes that the library refuses, and at which byte, for people.
//!
//! The library alone decides whether bytes are a table or a message. What is here reads the same bytes once more, rule by rule,
//! and stops at a place that breaks one; where several do, it need not be the first of them. That it finds one exactly where the
//! library refuses is tested; if it ever finds none, the refusal says so.

pub mod body;
pub mod message;
pub mod reply;
pub mod table;

/// A place that breaks a rule: the byte, the first of a file being byte 0, and what is wrong there.
#[derive(Clone, Debug, PartialEq, Eq)]
pub struct Wrong {
    pub byte: usize,
    pub what: String,
}

pub type Good = Result<(), Wrong>;

/// All is well so far, or this is wrong.
fn ensure(holds: bool, byte: usize, what: impl FnOnce() -> String) -> Good {
    if holds {
        Ok(())
    } else {
        Err(Wrong { byte, what: what() })
    }
}

/// What was found, in words, and the byte. If nothing was, the refusal stands all the same.
pub fn reason(found: Good) -> (String, Option<usize>) {
    match found {
        Err(wrong) => (wrong.words(), Some(wrong.byte)),
        Ok(()) => (NOT_SEEN.to_string(), None),
    }
}

/// What is said if nothing was found that a person could be told.
pub const NOT_SEEN: &str =
    "the library refuses it, and this program does not see why: please report it, with the files";

impl Wrong {
    /// The same, of bytes that begin so much later in a file.
    fn further_on(self, start: usize) -> Wrong {
        Wrong {
            byte: self.byte + start,
            what: self.what,
        }
    }

    pub fn words(&self) -> String {
        format!("at byte {}: {}", self.byte, self.what)
    }
}
