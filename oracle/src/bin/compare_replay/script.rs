//! Makes scripts. The oracle's ring runs along, so that the next line can be chosen
//! by what the ring would meet, and counts what the script meets.

use oracle::histories::{Chooser, Shape};
use oracle::random::Random;
use oracle::replay::{Line, Replay};
use oracle::ring::phase;

use crate::bad;
use crate::tally::Met;

/// A script with a ring of this shape. In one of four there is a bad line.
pub fn make(random: &mut Random, met: &mut Met, shape: Shape) -> Vec<u8> {
    let length = 100 + random.below(320);
    let bad_at = match random.below(16) {
        0 => Some(0),
        1..4 => Some(1 + random.below(length)),
        _ => None,
    };
    let mut text = match bad_at {
        Some(0) => first_bad(random, met, shape),
        _ => good(random, met, shape, bad_at.unwrap_or(length)),
    };
    if bad_at.is_some_and(|at| at > 0) {
        text.extend(spoiled(random, met));
    }
    if bad_at.is_some() {
        text.extend(unread(random, shape));
    }
    let last_is_empty = text == b"\n" || text.ends_with(b"\n\n");
    if random.below(4) == 0 && !last_is_empty {
        text.pop();
    }
    text
}

/// A `new` and as many good lines after it as are asked for.
fn good(random: &mut Random, met: &mut Met, shape: Shape, length: u32) -> Vec<u8> {
    let first = shape.new_line(shape.start(random));
    let mut text = spelled(random, first);
    let mut replay = Replay::begin(first).expect("the shape is allowed");
    met.begin(&replay.ring);
    let mut chooser = Chooser::new(random);
    for _ in 1..length {
        let line = chooser.line(random, &replay.ring);
        text.extend(spelled(random, line));
        call(&mut replay, line, met);
    }
    text
}

/// Makes the call, which is counted; a run is made and counted step by step.
fn call(replay: &mut Replay, line: Line, met: &mut Met) {
    let before = replay.ring;
    let Line::Run { p } = line else {
        let answer = replay.call(line);
        return met.call(line, answer, &before, &replay.ring);
    };
    let answer = replay.call(Line::Step { p });
    met.call(line, answer, &before, &replay.ring);
    while answer == 0 && replay.ring.producer[p as usize].phase != phase::IDLE {
        let before = replay.ring;
        replay.call(Line::Step { p });
        met.step(p, &before, &replay.ring);
    }
}

/// The text of a line; now and then zeros lead its numbers.
fn spelled(random: &mut Random, line: Line) -> Vec<u8> {
    let plain = line.to_string();
    if random.below(64) > 0 {
        return format!("{plain}\n").into();
    }
    let zeros = "0".repeat(random.pick(&[1, 2, 12, 70]));
    let fields: Vec<String> = plain
        .split(' ')
        .map(|field| match field.as_bytes()[0] {
            b'0'..=b'9' => format!("{zeros}{field}"),
            _ => field.to_string(),
        })
        .collect();
    format!("{}\n", fields.join(" ")).into()
}

/// A bad line of some kind, in the stead of a good one.
fn spoiled(random: &mut Random, met: &mut Met) -> Vec<u8> {
    let kind = random.below(bad::KINDS.len() as u32) as usize;
    let (name, spoil) = bad::KINDS[kind];
    let line = random.pick(&[
        Line::Get,
        Line::Put,
        Line::Step { p: 0 },
        Line::Run { p: 1 },
    ]);
    let mut text = spoil(random, line);
    assert!(Line::parse(&text).is_none(), "{name} is a good line");
    met.bad(kind);
    text.push(b'\n');
    text
}

/// A first line that is another call, a `new` that is refused, or bad anywhere.
fn first_bad(random: &mut Random, met: &mut Met, shape: Shape) -> Vec<u8> {
    let Shape {
        size,
        parts,
        producers,
    } = shape;
    let text = match random.below(4) {
        0 => {
            met.tally.first_other += 1;
            random
                .pick(&["get", "put", "offer 0 1 2", "flush 0", "step 0", "run 0"])
                .to_string()
        }
        1 => {
            met.tally.first_refused_1 += 1;
            format!("new {size} {parts} {} 0", producers + 8)
        }
        2 => {
            met.tally.first_refused_2 += 1;
            format!("new {size} {parts} {producers} {size}")
        }
        _ => {
            met.tally.first_bad += 1;
            return spoiled(random, met);
        }
    };
    format!("{text}\n").into()
}

/// Lines after a bad one, of which nothing is printed.
fn unread(random: &mut Random, shape: Shape) -> Vec<u8> {
    let some = [
        shape.new_line(0),
        Line::Get,
        Line::Flush { p: 0 },
        Line::Run { p: 0 },
    ];
    let count = random.below(some.len() as u32 + 1) as usize;
    some[..count]
        .iter()
        .flat_map(|line| format!("{line}\n").into_bytes())
        .collect()
}
