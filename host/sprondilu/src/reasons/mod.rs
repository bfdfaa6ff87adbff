//! Why a call refused, or a box gave another result than OK, in words, from what it was lent. The number and the result are the
//! library's; what is found here only says what they were about.

pub mod answer;
pub mod count;
pub mod merge;
pub mod result;

use crate::wrong::NOT_SEEN;
