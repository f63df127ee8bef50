//! Compares the first implementation's arithmetic with the oracle's: all edge
//! values, then random ones. Ends with status 1 at the first mismatch, if the
//! bridge fails, or if a kind of case that matters never occurred.
//!
//! Before it come, in this order, `rt lib` in crates/probe and `oracle/bridge/build`.

use std::process::ExitCode;

use oracle::bridge::{Bridge, Checked};
use oracle::counts::{self, Place};
use oracle::edges;
use oracle::random::Random;
use oracle::report::{self, Outcome};

use checks::Checks;

mod checks;
mod probe;
mod tally;

const SEED: u64 = 1;
const ROUNDS: u32 = 2_000_000;

fn main() -> ExitCode {
    report::end("compare_counts", compare())
}

fn compare() -> Outcome {
    let mut checks = Checks::new(Bridge::start()?);
    edge_cases(&mut checks)?;
    let mut random = Random::new(SEED);
    (0..ROUNDS).try_for_each(|_| round(&mut checks, &mut random))?;
    checks.finish()
}

fn edge_cases(checks: &mut Checks) -> Checked {
    (0..=70_000).try_for_each(|x| checks.allowed(x))?;
    divisions(checks)?;
    for size in edges::sizes() {
        pairs(checks, size)?;
        slots(checks, size)?;
        for parts in edges::parts() {
            shapes(checks, size, parts)?;
            rooms(checks, size, parts)?;
            reads(checks, size, parts)?;
        }
    }
    Ok(())
}

/// Edge values for a division.
fn divisions(checks: &mut Checks) -> Checked {
    let wide = edges::wide();
    for &x in &wide {
        for &s in &wide {
            checks.division(x, s)?;
        }
    }
    Ok(())
}

/// Edge values for the shape of a ring.
fn shapes(checks: &mut Checks, size: u32, parts: u32) -> Checked {
    let producers = edges::producers();
    producers
        .iter()
        .try_for_each(|&producers| checks.shape(size, parts, producers))
}

/// Edge values for what takes one count or two.
fn pairs(checks: &mut Checks, size: u32) -> Checked {
    let counts = edges::counts(&[size, size.wrapping_mul(2)]);
    for &x in &counts {
        checks.allowed(x)?;
        checks.sub_buffer(x, size)?;
        checks.round(x, size)?;
        for &y in &counts {
            checks.position(x, y)?;
            checks.commit(x, y)?;
            checks.raises(x, y)?;
        }
    }
    Ok(())
}

/// Edge values for where a slot goes.
fn slots(checks: &mut Checks, size: u32) -> Checked {
    for header in edges::HEADERS {
        let longest = size.wrapping_sub(header);
        for w in edges::counts(&[size, header, longest, size.wrapping_add(header)]) {
            for z in edges::record_sizes(counts::offset(w, size), size, header) {
                checks.place(w, z, size, header)?;
            }
        }
    }
    Ok(())
}

/// Edge values for full. An event is full by what it enters alone, so the rest
/// of its place is filled with what would mislead.
fn rooms(checks: &mut Checks, size: u32, parts: u32) -> Checked {
    let ring = size.wrapping_mul(parts);
    let counts = edges::counts(&ring_steps(size, parts));
    for &t in &counts {
        for read in edges::around([t.wrapping_sub(ring)]).iter().chain(&counts) {
            for enters in [false, true] {
                let misleading = read.wrapping_add(ring);
                let place = Place {
                    padding: misleading,
                    closes: !enters,
                    enters,
                    t,
                    a: misleading,
                    e: misleading,
                    ends: !enters,
                };
                checks.full(place, *read, size, parts)?;
            }
        }
    }
    Ok(())
}

/// Edge values for what the reader asks.
fn reads(checks: &mut Checks, size: u32, parts: u32) -> Checked {
    let counts = edges::counts(&ring_steps(size, parts));
    for &r in &counts {
        checks.position_in_ring(r, size, parts)?;
        let ready = (0..parts.min(16)).map(|laps| ready_seq(r, laps, size, parts));
        for seq in edges::around(ready).iter().chain(&counts) {
            checks.ready(r, *seq, size, parts)?;
        }
    }
    Ok(())
}

/// One round of random values: each function is asked with some.
fn round(checks: &mut Checks, random: &mut Random) -> Checked {
    let size = random.mostly(&edges::SIZES);
    let parts = random.mostly(&edges::PARTS);
    let (x, y) = (random.count(size), random.count(size));
    checks.allowed(random.count(size))?;
    checks.shape(size, parts, random.mostly(&[1, 8]))?;
    checks.position(x, y)?;
    checks.commit(x, y)?;
    checks.raises(x, y)?;
    checks.sub_buffer(x, size)?;
    checks.round(y, size)?;
    checks.position_in_ring(x, size, parts)?;
    let (dividend, divisor) = division(random);
    checks.division(dividend, divisor)?;

    let header = random.mostly(&[16, 24]);
    let z = record_size(random, counts::offset(x, size), size, header);
    checks.place(x, z, size, header)?;
    let place = counts::place(x, z, size, header);
    let a_ring_behind = place.t.wrapping_sub(size.wrapping_mul(parts));
    let read = random.pick(&[a_ring_behind, a_ring_behind.wrapping_add(1), y]);
    checks.full(place, read, size, parts)?;

    let laps = random.below(parts);
    let ready = ready_seq(x, laps, size, parts);
    let seq = random.pick(&[ready, ready.wrapping_add(size), y]);
    checks.ready(x, seq, size, parts)
}

/// A division of any two numbers, or one that is exact or fails to be by 1.
fn division(random: &mut Random) -> (u64, u64) {
    let (x, s) = (random.wide(), random.wide());
    let multiple = s.wrapping_mul(x);
    (random.pick(&[x, multiple, multiple.wrapping_sub(1)]), s)
}

/// A record size that some event may have, or fits by a hair, or is garbage.
fn record_size(random: &mut Random, o: u32, size: u32, header: u32) -> u32 {
    let some = random.below(size);
    let left = random.near(size.wrapping_sub(o));
    let longest = random.near(size.wrapping_sub(header));
    let garbage = random.count(size);
    random.pick(&[some, left, longest, garbage])
}

/// The distances at which a ring has its edges: sub-buffers and rounds.
fn ring_steps(size: u32, parts: u32) -> [u32; 4] {
    let ring = size.wrapping_mul(parts);
    [size, size.wrapping_mul(2), ring, ring.wrapping_sub(size)]
}

/// A commit seq with which the sub-buffer at `r` is ready. A commit count comes
/// around N times more slowly than a position, so an allowed ring has N of them.
fn ready_seq(r: u32, laps: u32, size: u32, parts: u32) -> u32 {
    let lap = (1u64 << 32).checked_div(u64::from(parts)).unwrap_or(0);
    counts::to_commit(r, size, parts)
        .wrapping_add(size)
        .wrapping_add(laps.wrapping_mul(lap as u32))
}
