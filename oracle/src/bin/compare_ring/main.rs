//! Compares the first implementation's ring with the oracle's, call by call: on
//! garbage states, on states that are nearly right, and along random histories.
//! Ends with status 1 at the first mismatch, if the bridge fails, or if a kind of
//! case that matters never occurred.
//!
//! Before it come, in this order, the builds of the libraries `probe` and `api` and
//! `oracle/bridge/build`.

use std::process::ExitCode;

use oracle::bridge::Bridge;
use oracle::random::Random;
use oracle::report::{self, Outcome};

use checks::Checks;

mod calls;
mod checks;
mod make;
mod probe;
mod state;
mod tally;
mod walk;

const SEED: u64 = 1;

/// Calls on garbage states, and histories.
const CALLS: u32 = 900_000;
const HISTORIES: u32 = 2_000;

fn main() -> ExitCode {
    report::end("compare_ring", compare())
}

fn compare() -> Outcome {
    let mut checks = Checks::new(Bridge::start()?);
    let mut random = Random::new(SEED);
    (0..CALLS).try_for_each(|_| calls::any(&mut checks, &mut random))?;
    (0..HISTORIES).try_for_each(|_| walk::history(&mut checks, &mut random))?;
    checks.finish()
}
