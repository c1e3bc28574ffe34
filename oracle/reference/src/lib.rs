//! The Rust source, and a post made of it. The source is compiled where it lies, unchanged but for one line of couriering.rs (request Two), whose
//! copy is in the build's folder. The crate `before` is this one without that line.
//!
//! `core` and `resume` stand in for files that are not there; `backend` for the crate of the backend.
//! `raw` reaches the source's plain functions, `Source` its calls, and `Reference` puts document 01's
//! refusals, save and load around them.

extern crate alloc;

include!(concat!(env!("OUT_DIR"), "/root.rs"));

mod backend;
mod core;
mod dissect;
mod guard;
mod limit;
mod load;
pub mod raw;
mod reference;
mod refusals;
mod resume;

pub use crate::core::source::{Raw, Source};
pub use limit::Passed;
pub use reference::Reference;

use crate::epoch::PairingRole;

/// epoch.rs names it; it comes from a file that is not there.
#[derive(Debug, Clone, Copy, PartialEq, Eq)]
pub struct ProgressRejected;
