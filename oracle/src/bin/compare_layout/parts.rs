//! Cases for the decoder and for the run that it hands over.

use oracle::bridge::Checked;
use oracle::edges::{self, LOST, SIZES};
use oracle::layout;
use oracle::random::Random;

use crate::checks::Checks;
use crate::make;

/// A change for each refusal from 11 to 16: a byte of the header or of the first
/// record's head, and its value.
const BREAKS: [(usize, u8); 6] = [(0, b'X'), (3, 2), (7, 255), (8, 1), (17, 255), (19, 8)];

pub fn cases(checks: &mut Checks, random: &mut Random) -> Checked {
    for size in SIZES {
        for shape in make::shapes(size) {
            let run = make::run(random, &shape);
            headers(checks, random, size, &run)?;
            let part = good(random, size, &run);
            used_sizes(checks, random, &part)?;
            heads(checks, random, &part, &shape)?;
            broken_together(checks, random, &part)?;
        }
        lengths(checks, random, size)?;
    }
    every_byte(checks, random, 64, &make::shapes(64))?;
    every_byte(checks, random, 128, &make::shapes(128)[6..9])?;
    every_number(checks, random)
}

/// A good part, with a position and a lost count that aren't 0: a refusal must
/// tell of neither.
fn good(random: &mut Random, size: u32, run: &[u8]) -> Vec<u8> {
    make::part(random, size, run, 0u32.wrapping_sub(size), 0x0102_0304)
}

/// Compares with room for the run that it just fits, or almost, or isn't there.
pub fn check(checks: &mut Checks, random: &mut Random, part: &[u8]) -> Checked {
    let length = layout::run(part).len() as u32;
    let short = length.saturating_sub(1);
    let room = random.pick(&[0, short, length, length + 1, length + 70]);
    checks.part(part, &random.bytes(room))
}

/// Positions on and off the boundary, and lost counts.
fn headers(checks: &mut Checks, random: &mut Random, size: u32, run: &[u8]) -> Checked {
    for position in edges::positions(size) {
        for lost in LOST {
            let part = make::part(random, size, run, position, lost);
            check(checks, random, &part)?;
        }
    }
    Ok(())
}

/// Used sizes at their bounds and around the end of the records.
fn used_sizes(checks: &mut Checks, random: &mut Random, part: &[u8]) -> Checked {
    let size = part.len() as u32;
    let end = 16 + layout::run(part).len() as u32;
    let mut part = part.to_vec();
    for used in edges::around([0, 16, 20, end - 3, end, end + 3, size, 256, 65_535]) {
        layout::write_used(&mut part, used);
        check(checks, random, &part)?;
    }
    Ok(())
}

/// Damage to each byte of the header and of record heads.
fn heads(checks: &mut Checks, random: &mut Random, part: &[u8], shape: &[u32]) -> Checked {
    let heads = make::heads(shape).into_iter().map(|at| 16 + at);
    for at in (0..16).chain(heads) {
        for value in make::values(part[at]) {
            check(checks, random, &make::changed(part, at, value))?;
        }
    }
    Ok(())
}

/// All that can be wrong, wrong together: the order decides.
fn broken_together(checks: &mut Checks, random: &mut Random, part: &[u8]) -> Checked {
    for broken in 0..1u32 << BREAKS.len() {
        let mut part = part.to_vec();
        for (bit, (at, value)) in BREAKS.into_iter().enumerate() {
            if broken >> bit & 1 == 1 {
                part[at] = value;
            }
        }
        check(checks, random, &part)?;
        part.pop();
        check(checks, random, &part)?;
    }
    Ok(())
}

/// Slices of all lengths: parts cut short, and parts with more behind them.
fn lengths(checks: &mut Checks, random: &mut Random, size: u32) -> Checked {
    for shape in &make::shapes(size)[2..4] {
        let run = make::run(random, shape);
        let part = good(random, size, &run);
        for length in edges::lengths() {
            let behind = random.bytes(length.saturating_sub(size));
            let kept = part.len().min(length as usize);
            check(checks, random, &[&part[..kept], &behind].concat())?;
        }
    }
    Ok(())
}

/// Each byte with each value.
fn every_byte(checks: &mut Checks, random: &mut Random, size: u32, shapes: &[Vec<u32>]) -> Checked {
    for shape in shapes {
        let run = make::run(random, shape);
        let part = good(random, size, &run);
        for at in 0..part.len() {
            for value in 0..=255 {
                check(checks, random, &make::changed(&part, at, value))?;
            }
        }
    }
    Ok(())
}

/// The version, the used size and the first payload's length with each value.
fn every_number(checks: &mut Checks, random: &mut Random) -> Checked {
    let run = make::run(random, &[5, 0, 3]);
    let whole = good(random, 64, &run);
    for at in [3, 6, 16] {
        let mut part = whole.clone();
        for value in 0..=u16::MAX {
            part[at..at + 2].copy_from_slice(&value.to_le_bytes());
            check(checks, random, &part)?;
        }
    }
    Ok(())
}

/// Random bytes that keep to the first few rules, so that each rule is met.
pub fn random_part(random: &mut Random) -> Vec<u8> {
    let size = random.pick(&SIZES);
    let mut part = random.bytes(size);
    let rules = random.below(6);
    if rules > 0 {
        part[..3].copy_from_slice(b"VTR");
        part[5] = 0;
    }
    if rules > 1 {
        part[3..5].copy_from_slice(&[1, 0]);
    }
    if rules > 2 {
        let used = 20 + random.below(size - 19);
        layout::write_used(&mut part, used);
    }
    if rules > 3 {
        part[8] = 0;
        part[9] &= 0xf0;
    }
    if rules > 4 {
        part[16] %= 64;
        part[17] = 0;
    }
    part
}
