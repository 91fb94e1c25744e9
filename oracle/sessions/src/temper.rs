//! How odd a session's radio is.

use crate::rng::Rng;

#[derive(Clone, Copy, Debug)]
pub struct Temper {
    /// One answer in this many is broken: fault, other kind, bad bit or cut.
    pub broken: u64,
    /// One packet in this many lies about itself.
    pub lying: u64,
    /// One status in this many starts a run.
    pub runs: u64,
    /// One clock or tick in this many stands at a limit or runs backwards.
    pub clocks: u64,
    /// One call in this many has bad arguments.
    pub arguments: u64,
    /// One call in this many has a short log.
    pub logs: u64,
    /// Little credit is given, so that sends stall.
    pub tight: bool,
    /// Many networks are heard.
    pub crowded: bool,
}

const CALM: Temper = Temper {
    broken: 100_000,
    lying: 60,
    runs: 2_000,
    clocks: 1_000,
    arguments: 100,
    logs: 200,
    tight: false,
    crowded: false,
};

const ODD: Temper =
    Temper { broken: 150, lying: 12, runs: 300, clocks: 60, arguments: 25, logs: 40, ..CALM };

const WILD: Temper =
    Temper { broken: 20, lying: 4, runs: 60, clocks: 8, arguments: 8, logs: 12, ..CALM };

pub fn choose(rng: &mut Rng) -> Temper {
    let base = [CALM, ODD, WILD][rng.weighted(&[5, 3, 1])];
    Temper { tight: rng.once_in(4), crowded: rng.once_in(10), ..base }
}
