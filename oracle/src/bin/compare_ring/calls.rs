//! Calls with arguments that are mostly right.

use oracle::bridge::{Checked, LONGEST};
use oracle::histories::Shape;
use oracle::random::Random;
use oracle::ring::Ring;

use crate::checks::Checks;
use crate::make;

/// A call of any kind on a garbage state.
pub fn any(checks: &mut Checks, random: &mut Random) -> Checked {
    let ring = make::state(random);
    on(checks, random, ring)
}

/// A call of any kind on this state, or on one next to it.
pub fn on(checks: &mut Checks, random: &mut Random, mut ring: Ring) -> Checked {
    let p = producer(random, &ring);
    let steer = ring.allowed() && random.below(4) > 0;
    match random.below(32) {
        0 => fresh(checks, random),
        1..5 => offer(checks, random, ring, p),
        5 => flush(checks, random, ring, p),
        6 => checks.put(&ring),
        7..9 => held(checks, random, &ring),
        9..14 => {
            if steer {
                make::ready(random, &mut ring);
            }
            checks.get(&ring)?;
            checks.ready_count(&ring)
        }
        14..17 => {
            let (memory, desks) = lent(random, &ring);
            checks.run(&ring, p, &memory, &desks)
        }
        _ => {
            if steer {
                make::aim(random, &mut ring, p);
            }
            let (memory, desks) = lent(random, &ring);
            checks.step(&ring, p, &memory, &desks)
        }
    }
}

fn fresh(checks: &mut Checks, random: &mut Random) -> Checked {
    let mut shape = make::shape(random);
    let multiple = shape.start(random);
    let near = random.near(multiple);
    let part = multiple.wrapping_add(shape.size);
    let any = random.any();
    if random.below(4) == 0 {
        shape = Shape::of(&make::state(random));
    }
    checks.fresh(shape, random.pick(&[multiple, multiple, near, part, any]))
}

fn offer(checks: &mut Checks, random: &mut Random, ring: Ring, p: u32) -> Checked {
    let ring = mostly_idle(random, ring, p);
    let desks = bytes(random, ring.size, ring.producers, ring.parts);
    let longest = if ring.allowed() { ring.longest() } else { 44 };
    let some = random.below(longest + 1);
    let length = random.pick(&[0, some, some, longest, longest + 1, longest + 9]);
    let payload = random.bytes(length);
    checks.offer(&ring, p, random.any() as u8, &payload, &desks)
}

fn flush(checks: &mut Checks, random: &mut Random, ring: Ring, p: u32) -> Checked {
    let ring = mostly_idle(random, ring, p);
    checks.flush(&ring, p)
}

/// Lengths that are right or off by a byte, garbage, or right but for the bits above
/// the low 32.
fn held(checks: &mut Checks, random: &mut Random, ring: &Ring) -> Checked {
    let right = u64::from(ring.size) * u64::from(ring.parts);
    let wide = random.wide();
    let length = match random.below(8) {
        0 => random.pick(&[0, right.wrapping_sub(1), right + 1, right | 1 << 32, wide]),
        _ => right,
    };
    checks.held(ring, length)
}

/// The number of a producer, now and then of one that the ring hasn't.
fn producer(random: &mut Random, ring: &Ring) -> u32 {
    let any = random.any();
    match random.below(24) {
        0 => random.pick(&[ring.producers, 7, 8, any]),
        _ => random.below(ring.producers.clamp(1, 8)),
    }
}

/// The ring with producer `p` idle in most cases.
fn mostly_idle(random: &mut Random, mut ring: Ring, p: u32) -> Ring {
    if let Some(producer) = ring.producer.get_mut(p as usize) {
        if random.below(8) > 0 {
            producer.phase = 0;
        }
    }
    ring
}

/// Ring memory and desks.
pub fn lent(random: &mut Random, ring: &Ring) -> (Vec<u8>, Vec<u8>) {
    let Ring {
        size,
        parts,
        producers,
        ..
    } = *ring;
    let memory = bytes(random, size, parts, producers);
    let desks = bytes(random, size, producers, parts);
    (memory, desks)
}

/// Memory for so many times S bytes, now and then for others.
fn bytes(random: &mut Random, size: u32, times: u32, others: u32) -> Vec<u8> {
    let right = u64::from(size) * u64::from(times);
    let other = u64::from(size) * u64::from(others);
    let (less, double) = (right.saturating_sub(1), right.saturating_mul(2));
    let length = match random.below(24) {
        0 => random.pick(&[0, less, right + 1, double, other]),
        _ => right,
    };
    // The bridge carries all memory that can be right, but not all that a garbage
    // shape asks for.
    let short = random.below(512);
    match u32::try_from(length) {
        Ok(length) if length as usize <= LONGEST => random.bytes(length),
        _ => random.bytes(short),
    }
}
