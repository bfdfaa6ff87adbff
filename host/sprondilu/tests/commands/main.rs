//! Every command as a user types it, against the second program.

mod answer;
mod check;
#[path = "../common/mod.rs"]
mod common;
mod count;
mod fresh;
mod help;
mod json;
mod merge;
mod message;
mod show;
mod stamps;
