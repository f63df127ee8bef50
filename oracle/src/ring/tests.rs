//! Rings of S = 64, N = 2 and P = 2, as in document 01's example: the step table
//! row by row, each refusal, the reader's calls, and whole histories.

use super::*;

mod histories;
mod reader;
mod refusals;
mod rows;

/// Ring memory in which no byte is one that a step of these tests writes.
const MEMORY: [u8; 128] = [0xee; 128];

fn fresh() -> Ring {
    Ring::fresh(64, 2, 2, 0).expect("all is allowed")
}

/// Desks in which each byte tells its place.
fn desks() -> [u8; 128] {
    std::array::from_fn(|at| at as u8)
}

/// A fresh ring with this write count, in which producer 0 is so.
fn at(write: u32, producer: Producer) -> Ring {
    let mut ring = fresh();
    ring.write = write;
    ring.producer[0] = producer;
    ring
}

fn event(phase: u32, w: u32, z: u32) -> Producer {
    Producer {
        phase,
        w,
        z,
        ..Producer::default()
    }
}

fn flush(phase: u32, w: u32) -> Producer {
    event(phase, w, 0)
}

/// The ring once producer 0 has become this one, and nothing else has changed.
fn then(mut ring: Ring, producer: Producer) -> Ring {
    ring.producer[0] = producer;
    ring
}

/// A step of producer 0, and the memory after it.
fn step_in(ring: Ring) -> (Ring, [u8; 128]) {
    let (mut memory, desks) = (MEMORY, desks());
    let next = ring.step(0, &mut memory, &desks).expect("the step fits");
    (next, memory)
}

/// A step of producer 0 that writes no byte.
fn step(ring: Ring) -> Ring {
    let (next, memory) = step_in(ring);
    assert_eq!(memory, MEMORY);
    next
}

/// The memory with these bytes from `start` on.
fn memory_with(start: usize, bytes: &[u8]) -> [u8; 128] {
    let mut memory = MEMORY;
    memory[start..start + bytes.len()].copy_from_slice(bytes);
    memory
}
