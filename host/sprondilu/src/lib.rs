//! The host program: what the certifier, technicians and auditors use on files.
//!
//! Every number, table, reply and count comes from the proved library; this program reads files, lends their bytes, writes
//! what came of it and says it in words. What it reads by itself, in order to show it, is read only after the library has
//! found it good; and where the library refuses, [`wrong`] and [`reasons`] look for what a person would want to know, and
//! decide nothing, but for [`wrong::reply`]: no call judges whether a file is a reply.
//!
//! - [`commands`]: one file for each command, [`help`] their help texts
//! - [`words`]: the words of a command line, [`stamps`]: stamps as people type and see them, and as programs are told them
//! - [`files`]: reading with a limit, writing so that nothing is lost, one run at a time on a table file
//! - [`image`], [`message`], [`reply`]: the fields of what was found good; [`names`]: the names of the codes
//! - [`wrong`]: what is wrong with bytes, and at which byte; [`reasons`]: why a call refused, and what stood in the way of OK
//! - [`room`]: how many rows may still be added in a view
//! - [`ends`]: how a run ends, [`json`]: answers for programs
//! - [`demo`]: groups played through the library

pub mod calls;
pub mod commands;
pub mod demo;
pub mod ends;
pub mod files;
pub mod help;
pub mod image;
pub mod json;
pub mod message;
pub mod names;
pub mod reasons;
pub mod reply;
pub mod room;
pub mod stamps;
pub mod words;
pub mod wrong;
