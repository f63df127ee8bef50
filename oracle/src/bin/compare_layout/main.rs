//! Compares the first implementation's layout with the oracle's: edge cases and
//! damage to every byte that matters, then random cases. Ends with status 1 at the
//! first mismatch, if the bridge fails, or if a kind of case that matters never
//! occurred.
//!
//! Before it come, in this order, `rt lib` in crates/probe and `oracle/bridge/build`.

use std::process::ExitCode;

use oracle::bridge::{Bridge, Checked};
use oracle::counts;
use oracle::edges::SIZES;
use oracle::random::Random;
use oracle::report::{self, Outcome};

use checks::Checks;

mod checks;
mod make;
mod parts;
mod pieces;
mod probe;
mod runs;
mod tally;

const SEED: u64 = 1;
const ROUNDS: u32 = 40_000;

fn main() -> ExitCode {
    report::end("compare_layout", compare())
}

fn compare() -> Outcome {
    let mut checks = Checks::new(Bridge::start()?);
    let mut random = Random::new(SEED);
    parts::cases(&mut checks, &mut random)?;
    runs::cases(&mut checks, &mut random)?;
    pieces::cases(&mut checks, &mut random)?;
    (0..ROUNDS).try_for_each(|_| round(&mut checks, &mut random))?;
    checks.finish()
}

/// One round of random cases: each function is asked some.
fn round(checks: &mut Checks, random: &mut Random) -> Checked {
    let size = random.pick(&SIZES);
    let shape = make::shape(random, size);
    let mut run = make::run(random, &shape);
    make::damage(random, &mut run);
    let count = random.count(size);
    let position = random.pick(&[count, counts::start(count, size)]);
    let lost = random.count(256);

    let mut part = make::part(random, size, &run, position, lost);
    make::damage(random, &mut part);
    parts::check(checks, random, &part)?;
    let any = parts::random_part(random);
    parts::check(checks, random, &any)?;
    let length = random.pick(&[size, size, size * 2, size / 2, size + 1]);
    checks.lay_out(&run, position, lost, &random.bytes(length))?;

    let (small, other) = (random.below(80), random.below(80));
    checks.write_header(position, lost, &random.bytes(small))?;
    checks.write_used(random.count(65_536), &random.bytes(small))?;
    pieces::record(checks, random, small, other)?;
    let equal = random.pick(&[small, other]);
    checks.copy(&random.bytes(small), &random.bytes(equal))
}
