//! The lease manager of summerset 536195dce6, its seven files unchanged, with a
//! driver for it on a clock that stands until it is told to move. See README.md.
//!
//! The repository's own names are `pub(crate)`: code that calls them directly is a
//! module of this crate, as `protocol` and `leaves` are.
#![allow(dead_code, unused_imports)]

#[macro_use]
pub mod utils;
pub mod leaves;
pub mod protocol;
pub mod server;
pub mod words;

// what the macros of print.rs name by `$crate::`
pub use utils::{ME, SummersetError};
