//! Random histories: each call of theirs, and calls on states close to theirs.

use oracle::bridge::Checked;
use oracle::histories::{Chooser, Shape};
use oracle::random::Random;
use oracle::replay::{Line, Replay};

use crate::calls;
use crate::checks::Checks;
use crate::make;

/// The calls of one history.
const LENGTH: u32 = 120;

pub fn history(checks: &mut Checks, random: &mut Random) -> Checked {
    let shape = make::shape(random);
    let first = shape.new_line(shape.start(random));
    let mut replay = Replay::begin(first).expect("the shape is allowed");
    let mut chooser = Chooser::new(random);
    for _ in 0..LENGTH {
        let line = chooser.line(random, &replay.ring);
        call(checks, &replay, line)?;
        replay.call(line);
        if random.below(4) == 0 {
            aside(checks, random, &replay)?;
        }
    }
    Ok(())
}

/// Compares a call of the history.
fn call(checks: &mut Checks, replay: &Replay, line: Line) -> Checked {
    let Replay {
        ring,
        memory,
        desks,
    } = replay;
    match line {
        Line::New {
            size,
            parts,
            producers,
            start,
        } => {
            let shape = Shape {
                size,
                parts,
                producers,
            };
            checks.fresh(shape, start)
        }
        Line::Offer { p, kind, length } => {
            checks.offer(ring, p, kind, &vec![kind; length.into()], desks)
        }
        Line::Flush { p } => checks.flush(ring, p),
        Line::Step { p } => checks.step(ring, p, memory, desks),
        Line::Run { p } => checks.run(ring, p, memory, desks),
        Line::Get => checks.get(ring),
        Line::Put => checks.put(ring),
    }
}

/// What the history itself doesn't ask of its state, and a call on a state that
/// differs in a few fields.
fn aside(checks: &mut Checks, random: &mut Random, replay: &Replay) -> Checked {
    checks.ready_count(&replay.ring)?;
    checks.held(&replay.ring, replay.memory.len() as u64)?;
    let mut ring = replay.ring;
    make::damage(random, &mut ring);
    calls::on(checks, random, ring)
}
