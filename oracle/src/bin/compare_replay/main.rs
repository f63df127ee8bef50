//! Compares the first implementation's replay program with the oracle's: generated
//! scripts go through both. Ends with status 1 at the first mismatch, of which it
//! shows a short script, if the program fails, or if a kind of case that matters
//! never occurred.
//!
//! Before it come, in this order, the build of the program `replay` and
//! `oracle/bridge/build`.

use std::num::NonZero;
use std::process::ExitCode;
use std::sync::atomic::{AtomicUsize, Ordering};
use std::thread;

use oracle::bridge::Checked;
use oracle::histories::Shape;
use oracle::random::Random;
use oracle::replay;
use oracle::report::{self, Outcome};

use program::Program;
use tally::Met;

mod bad;
mod program;
mod script;
mod shrink;
mod tally;

const SEED: u64 = 1;

/// Scripts for each S, N and P.
const SCRIPTS: u32 = 10;

fn main() -> ExitCode {
    report::end("compare_replay", compare())
}

fn compare() -> Outcome {
    let mut random = Random::new(SEED);
    let mut met = Met::new();
    let mut scripts = ["", "\n", "new 64 2 1 0"].map(Vec::from).to_vec();
    for _ in 0..SCRIPTS {
        scripts.extend(Shape::all().map(|shape| script::make(&mut random, &mut met, shape)));
    }
    run_all(&Program::find(), &scripts)?;
    for script in &scripts {
        met.script(script, &replay::replay(script));
    }
    met.finish()
}

/// Runs the scripts, as many at a time as there are processors, until one differs:
/// most of a run is the program's start.
fn run_all(program: &Program, scripts: &[Vec<u8>]) -> Checked {
    let next = AtomicUsize::new(0);
    let run_some = || {
        while let Some(script) = scripts.get(next.fetch_add(1, Ordering::Relaxed)) {
            if let Err(words) = check(program, script) {
                next.store(scripts.len(), Ordering::Relaxed);
                return Err(words);
            }
        }
        Ok(())
    };
    let runners = thread::available_parallelism().map_or(1, NonZero::get);
    thread::scope(|scope| {
        let running: Vec<_> = (0..runners).map(|_| scope.spawn(run_some)).collect();
        let mut ended = running.into_iter().map(|runner| runner.join());
        ended.try_for_each(|one| one.expect("a runner panicked"))
    })
}

/// What the program prints must be what the oracle prints, byte by byte.
fn check(program: &Program, script: &[u8]) -> Checked {
    if program.run(script)?.agrees(&replay::replay(script)) {
        return Ok(());
    }
    Err(shrink::mismatch(program, script)?)
}
