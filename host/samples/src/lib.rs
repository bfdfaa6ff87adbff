//! Tables, messages and replies of document 01 for tests and measurements: random ones by its rules, and some that break
//! one of them.
//!
//! Images are put together here byte by byte, apart from the second program, so that neither can hide a mistake of the
//! other. A sample has a kind, in words, by which whoever judges samples counts them.
//!
//! - [`dice`]: numbers that look random and are the same in every run
//! - [`table`]: a table as plain numbers, which keeps no rule by itself, and its image
//! - [`random`]: random tables by the rules
//! - [`spaced`]: tables of which every row and every gap is searched
//! - [`room`]: tables about the last row that there is room for
//! - [`field`]: where the fields of an image stand, and values about the limits of each
//! - [`transactions`]: transactions that clash often
//! - [`damage`]: images of many kinds, good and bad
//! - [`message`]: messages to a box
//! - [`kinds`]: messages of every kind about a table
//! - [`next`]: messages that go on from what a box holds
//! - [`runs`]: tables that one merge may be made of
//! - [`mixtures`]: such tables with transactions that clash often
//! - [`replies`]: the replies that a coordinator counts
//! - [`parts`]: a test in parts that are worked out side by side
//! - [`tally`]: how many samples of each kind were images
//! - [`checked`]: what the check said to messages 1, by where their stamps lay

pub mod checked;
pub mod damage;
pub mod dice;
pub mod field;
pub mod kinds;
pub mod message;
pub mod mixtures;
pub mod next;
pub mod parts;
pub mod random;
pub mod replies;
pub mod room;
pub mod runs;
pub mod spaced;
pub mod table;
pub mod tally;
pub mod transactions;

pub use checked::Checked;
pub use dice::Dice;
pub use parts::{side_by_side, together};
pub use replies::Record;
pub use table::{row_of_the_paper, Access, Row, Table};
pub use tally::Tally;

/// "A stamp is 1 to 2^48-1".
pub const GREATEST_STAMP: u64 = (1 << 48) - 1;

/// "At most 512 rows."
pub const MOST_ROWS: usize = 512;

/// "A table buffer has at least 49,176 bytes."
pub const TABLE_BYTES: usize = 49_176;
