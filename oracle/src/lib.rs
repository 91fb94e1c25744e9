//! The unchanged Rust driver on the host, its bus played from a recording.

extern crate alloc;

pub mod call;
pub mod caught;
pub mod compared;
pub mod oracle;
pub mod player;
pub mod rules;
pub mod state;

pub use oracle::{CallResult, Oracle};

// The driver's files, byte for byte, with the shims laid beside them by build.rs. Its
// lints are its own business.
include!(concat!(env!("OUT_DIR"), "/driver.rs"));
