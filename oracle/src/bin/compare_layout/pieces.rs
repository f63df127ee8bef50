//! Cases for what writes a sub-buffer or a desk piece by piece.

use oracle::bridge::Checked;
use oracle::edges::{self, HALF, LOST, SIZES};
use oracle::random::Random;

use crate::checks::Checks;

pub fn cases(checks: &mut Checks, random: &mut Random) -> Checked {
    headers(checks, random)?;
    used_sizes(checks, random)?;
    small_records(checks, random)?;
    large_records(checks, random)?;
    copies(checks, random)
}

/// A header in slices of all lengths.
fn headers(checks: &mut Checks, random: &mut Random) -> Checked {
    for length in edges::lengths() {
        for position in edges::positions(64) {
            let lost = random.pick(&LOST);
            checks.write_header(position, lost, &random.bytes(length))?;
        }
        for lost in LOST {
            let position = random.any();
            checks.write_header(position, lost, &random.bytes(length))?;
        }
    }
    Ok(())
}

/// A used size in slices of all lengths, then each one that has 16 bits or a
/// little more.
fn used_sizes(checks: &mut Checks, random: &mut Random) -> Checked {
    for length in edges::lengths() {
        for used in edges::around([0, 20, 64, 256, 4_096, 65_536, HALF]) {
            checks.write_used(used, &random.bytes(length))?;
        }
    }
    for used in 0..=66_000 {
        checks.write_used(used, &random.bytes(16))?;
    }
    Ok(())
}

/// Small desks and payloads in all relations of length, then all kinds and
/// producers.
fn small_records(checks: &mut Checks, random: &mut Random) -> Checked {
    for desk in 0..=72 {
        for payload in 0..=72 {
            record(checks, random, desk, payload)?;
        }
    }
    for kind in 0..=255 {
        for producer in 0..=255 {
            let (desk, payload) = (random.bytes(8), random.bytes(2));
            checks.lay_record(&desk, &payload, kind, producer)?;
        }
    }
    Ok(())
}

/// Desks of S bytes and payloads around the longest that an event may have and
/// the longest that fits, then payloads around the longest that a record may have.
fn large_records(checks: &mut Checks, random: &mut Random) -> Checked {
    for size in SIZES {
        for desk in edges::around([size]) {
            for payload in edges::around([size - 20, size - 4]) {
                record(checks, random, desk, payload)?;
            }
        }
    }
    for payload in 65_533..=65_537 {
        for desk in [
            64,
            65_536,
            payload,
            payload + 3,
            payload + 4,
            payload + 5,
            131_072,
        ] {
            record(checks, random, desk, payload)?;
        }
    }
    Ok(())
}

/// Slices of all relations of length.
fn copies(checks: &mut Checks, random: &mut Random) -> Checked {
    for src in 0..=72 {
        for dst in 0..=72 {
            checks.copy(&random.bytes(src), &random.bytes(dst))?;
        }
    }
    for src in edges::lengths() {
        for dst in [src, src + 1, src.saturating_sub(1), src / 2, 0] {
            checks.copy(&random.bytes(src), &random.bytes(dst))?;
        }
    }
    Ok(())
}

/// A record of any kind and producer, for a desk and a payload of these lengths.
pub fn record(checks: &mut Checks, random: &mut Random, desk: u32, payload: u32) -> Checked {
    let (kind, producer) = (random.any() as u8, random.any() as u8);
    checks.lay_record(&random.bytes(desk), &random.bytes(payload), kind, producer)
}
