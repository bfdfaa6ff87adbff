//! A group of boxes over time, played from outside: coordinators that keep the seven rules, messages that are lost, repeated
//! and reordered, boxes that are away, view after view. Every answer, merge and count is the real library's, and after each
//! event demand 3 is judged on the bytes that came back. Whatever a box says OK to is held to the day's order besides, and
//! whatever it takes or refuses as full to the room that it had. Boxes with few rows, which are full soon, are the second
//! program's, for the library has none.
//!
//! What a history is, which events are lawful, and what must stand is said in `crates/history/specs/Survival.antt`; the
//! names here are that file's. Nothing is proved by this. It shows that the compiled library, behind its C boundary, does
//! in many thousand histories what is proved of its definitions, and that whoever puts a fault in is found out.
//!
//! - [`machine`]: what answers, merges and counts: the library, or the second program
//! - [`faults`]: the second program with one fault put in
//! - [`group`]: the boxes' tables, and all that has come to pass
//! - [`room`]: whether a box has room for a new stamp
//! - [`law`]: which events the seven rules allow
//! - [`watch`]: demand 3, judged from outside, and the day's order and the room of each box
//! - [`play`]: one history, event by event
//! - [`coordinator`]: the dice that choose the events of a history
//! - [`transactions`]: few transactions that clash often
//! - [`met`], `notes`, `newly`: how often each thing was met, so that no history is an empty one
//! - [`words`]: a history in words
//! - [`run`]: many histories, one seed after the other

pub mod coordinator;
pub mod faults;
pub mod group;
pub mod law;
pub mod machine;
pub mod met;
mod newly;
mod notes;
pub mod play;
pub mod room;
pub mod run;
pub mod transactions;
pub mod watch;
pub mod words;
