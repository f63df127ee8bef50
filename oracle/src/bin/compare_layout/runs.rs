//! Cases for the laying-out side.

use oracle::bridge::Checked;
use oracle::edges::{self, LOST, SIZES};
use oracle::random::Random;

use crate::checks::Checks;
use crate::make;

pub fn cases(checks: &mut Checks, random: &mut Random) -> Checked {
    for size in SIZES {
        for shape in make::shapes(size) {
            let run = make::run(random, &shape);
            headers(checks, random, size, &run)?;
            heads(checks, random, size, &run, &shape)?;
            ends(checks, random, size, &run)?;
            part_lengths(checks, random, size, &run)?;
        }
        run_lengths(checks, random, size)?;
        broken_together(checks, random, size)?;
    }
    every_byte(checks, random)
}

/// Positions on and off the boundary, and lost counts.
fn headers(checks: &mut Checks, random: &mut Random, size: u32, run: &[u8]) -> Checked {
    for position in edges::positions(size) {
        for lost in LOST {
            checks.lay_out(run, position, lost, &random.bytes(size))?;
        }
    }
    Ok(())
}

/// Damage to each byte of record heads.
fn heads(
    checks: &mut Checks,
    random: &mut Random,
    size: u32,
    run: &[u8],
    shape: &[u32],
) -> Checked {
    for at in make::heads(shape) {
        for value in make::values(run[at]) {
            let run = make::changed(run, at, value);
            checks.lay_out(&run, size, 0, &random.bytes(size))?;
        }
    }
    Ok(())
}

/// Runs cut short at their beginning or end, and runs that go on.
fn ends(checks: &mut Checks, random: &mut Random, size: u32, run: &[u8]) -> Checked {
    let longer = [run, &[0; 4], &random.bytes(4)].concat();
    let near_end = run.len().saturating_sub(8);
    for length in (0..near_end.min(40)).chain(near_end..=longer.len()) {
        checks.lay_out(&longer[..length], 0, 1, &random.bytes(size))?;
    }
    Ok(())
}

/// Parts of all lengths, among them those whose bounds the position keeps.
fn part_lengths(checks: &mut Checks, random: &mut Random, size: u32, run: &[u8]) -> Checked {
    for length in edges::lengths() {
        for position in [0, size, length] {
            checks.lay_out(run, position, 0, &random.bytes(length))?;
        }
    }
    Ok(())
}

/// Runs of all lengths, which but for the smallest are good ones.
fn run_lengths(checks: &mut Checks, random: &mut Random, size: u32) -> Checked {
    let longest = size - 16;
    for length in edges::lengths().into_iter().chain([longest, longest + 1]) {
        let run = make::run_of_length(random, length);
        checks.lay_out(&run, 0, 0, &random.bytes(size))?;
    }
    Ok(())
}

/// All that can be wrong, wrong together: the order decides.
fn broken_together(checks: &mut Checks, random: &mut Random, size: u32) -> Checked {
    let good = [0, 0, 1, 1];
    let passes = [255, 255, 1, 1];
    let producer = [0, 0, 1, 8];
    let both = [255, 255, 1, 8];
    let too_many = (size as usize - 16) / 4 + 1;
    let mut runs = vec![vec![], vec![producer, passes], vec![passes, producer]];
    for record in [good, passes, producer, both] {
        runs.extend([vec![record], vec![good, record], vec![record; too_many]]);
    }
    for run in runs {
        for length in [size, size + 1] {
            for position in [0, 1] {
                checks.lay_out(&run.concat(), position, 0, &random.bytes(length))?;
            }
        }
    }
    Ok(())
}

/// Each byte of small runs with each value.
fn every_byte(checks: &mut Checks, random: &mut Random) -> Checked {
    for shape in make::shapes(64) {
        let run = make::run(random, &shape);
        for at in 0..run.len() {
            for value in 0..=255 {
                let run = make::changed(&run, at, value);
                checks.lay_out(&run, 64, 0, &random.bytes(64))?;
            }
        }
    }
    Ok(())
}
