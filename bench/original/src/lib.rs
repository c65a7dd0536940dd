//! The lease manager of summerset 536195dce6, its seven files unchanged, as `oracle/prepare` lays
//! them out, and `timed`, which times it. The repository's own names are `pub(crate)`, so `timed`
//! must stand in the same crate.
#![allow(dead_code, unused_imports)]

// not ours to format
#[rustfmt::skip]
#[macro_use]
#[path = "../../../oracle/src/utils/mod.rs"]
pub mod utils;
#[rustfmt::skip]
#[path = "../../../oracle/src/leaves.rs"]
mod leaves;
#[rustfmt::skip]
#[path = "../../../oracle/src/server/mod.rs"]
mod server;
#[rustfmt::skip]
#[path = "../../../oracle/src/words.rs"]
mod words;

pub mod timed;

// what the macros of print.rs name by `$crate::`
pub use utils::{ME, SummersetError};
