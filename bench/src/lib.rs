//! What is timed, and how. See README.md.

pub mod arrays;
pub mod calls;
pub mod cards;
pub mod cases;
pub mod compare;
pub mod measure;
pub mod replay;
pub mod stream;

// The generator of the runs beside the Rust.
#[path = "../../compare/sessions/src/random.rs"]
#[allow(dead_code)]
mod random;
