//! The proved lease manager of the line controllers, for a host in Rust.
//!
//! The manager itself is written in Rattle and proved: what a call answers, and the record that it
//! leaves, equal the rules of `docs/RULEBOOK.md` for any record and any argument. `tools/archives
//! biasflint` makes the archive that this crate links. The crate around it is ordinary Rust and not
//! proved: it keeps the record, turns calls into the library's cards and the library's lines into
//! actions, and has no rule of its own. Names are those of the Rust that the manager is a port of, summerset's
//! `src/server/leaseman.rs`.
//!
//! [`LeaseManager`] is where to start; `examples/five_lines.rs` is a host loop of five controllers.
//! A call needs some 3 kB of stack, and no heap.
#![deny(missing_docs)]

mod bitmap;
mod cards;
mod manager;
mod notices;
pub mod raw;
mod refusal;

pub use bitmap::{Bitmap, BitmapError, CAPACITY, Ones};
pub use manager::LeaseManager;
pub use notices::{Actions, Advanced, Bar, DriftSetting, Fired, FiredTimer, LeaseAction};
pub use notices::{LeaseMsg, LeaseNotice, LeaseNum, Line, Reading, ReplicaId};
pub use refusal::Refusal;
