//! A long attack on all calls of the library: inputs without end, put together from parts that are by document 01 and parts
//! that are not, each answered by the library in fenced memory and by the second program in ordinary memory, and every
//! number and every byte compared.
//!
//! The work goes in rounds. A round is given by its number alone, so that any of them can be played again.
//!
//! - [`fenced`]: memory with a fence on either side, which nobody may touch
//! - [`calls`]: the seven calls of the library, or of whatever is put in its place
//! - [`both`]: one call by both programs, and what differs
//! - [`met`]: how often each call ended with each number, an answer with each count, a check with RETRY at a prepared
//!   row's stamp, and a check of message 1 with each result
//! - [`inputs`]: what the calls are given
//! - [`rounds`]: rounds one after the other, side by side

pub mod both;
pub mod calls;
pub mod fenced;
pub mod inputs;
pub mod met;
pub mod rounds;

pub use both::{Both, Difference};
pub use calls::Calls;
pub use fenced::Memory;
pub use met::Met;
