//! Files as users have them: missing, empty, cut, too long, linked, locked up, oddly named.

mod bad;
#[path = "../common/mod.rs"]
mod common;
mod dumps;
mod names;
mod places;
mod rights;
