//! Random sessions for differential runs: made from a seed, on the oracle, with mostly
//! plausible answers and every oddity at some rate.

pub mod broken;
pub mod counts;
pub mod device;
pub mod generate;
pub mod packet;
pub mod plan;
pub mod rng;
pub mod session;
pub mod shrink;
pub mod temper;

pub use generate::generate;
pub use session::{Session, Step};
