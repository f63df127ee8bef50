//! Garbage states: all of them random, or nearly right, where most rules have their
//! edges.

use oracle::counts;
use oracle::edges::{HALF, PARTS, SIZES};
use oracle::histories::Shape;
use oracle::random::Random;
use oracle::ring::{phase, Producer, Ring};

/// A state of any kind.
pub fn state(random: &mut Random) -> Ring {
    let shape = shape(random);
    let mut ring = match random.below(8) {
        0 => wild(random, shape),
        _ => near(random, shape),
    };
    match random.below(96) {
        0 => (ring.size, ring.parts, ring.producers) = (random.any(), random.any(), random.any()),
        1..5 => misshape(random, &mut ring),
        _ => (),
    }
    ring
}

/// An allowed shape: mostly a small one, so that little memory crosses.
pub fn shape(random: &mut Random) -> Shape {
    match random.below(512) {
        0 => Shape {
            size: 4_096,
            parts: 16,
            producers: 8,
        },
        1..8 => Shape {
            size: random.pick(&SIZES),
            parts: random.pick(&PARTS),
            producers: 1 + random.below(8),
        },
        _ => Shape {
            size: random.pick(&[64, 64, 64, 128]),
            parts: random.pick(&[2, 2, 2, 4, 8, 16]),
            producers: random.pick(&[1, 2, 3, 8]),
        },
    }
}

/// S, N or P that is not allowed, or is another one.
fn misshape(random: &mut Random, ring: &mut Ring) {
    match random.below(3) {
        0 => ring.size = random.mostly(&SIZES),
        1 => ring.parts = random.mostly(&PARTS),
        _ => ring.producers = random.mostly(&[1, 8]),
    }
}

/// A state of which all but the shape is random.
fn wild(random: &mut Random, shape: Shape) -> Ring {
    let mut ring = shaped(shape);
    ring.write = random.any();
    ring.read = random.any();
    ring.commit = ring.commit.map(|_| random.any());
    ring.seq = ring.seq.map(|_| random.any());
    ring.producer = ring.producer.map(|_| Producer {
        phase: random.any() >> random.below(32),
        z: random.any() >> random.below(32),
        w: random.any(),
        full: random.below(2) == 0,
        done: random.any() >> random.below(32),
        v: random.any(),
        s: random.any(),
    });
    ring.offered = random.any();
    ring.written = random.any();
    ring.lost = random.any();
    ring.holding = random.below(2) == 0;
    ring
}

fn shaped(shape: Shape) -> Ring {
    Ring {
        size: shape.size,
        parts: shape.parts,
        producers: shape.producers,
        ..Ring::default()
    }
}

/// A state that is nearly right.
fn near(random: &mut Random, shape: Shape) -> Ring {
    let mut ring = shaped(shape);
    ring.write = position(random, &ring);
    ring.read = read(random, &ring);
    for i in 0..ring.commit.len() {
        ring.commit[i] = commit(random, ring.size);
        ring.seq[i] = seq(random, ring.size, ring.commit[i]);
    }
    for p in 0..ring.producer.len() {
        ring.producer[p] = producer(random, &ring);
    }
    ring.offered = random.count(1);
    ring.written = random.count(1);
    ring.lost = random.count(1);
    ring.holding = random.below(2) == 0;
    ring
}

/// A position close to zero, to the middle of the range or anywhere: on a boundary,
/// behind a header, inside, or next to one of these.
fn position(random: &mut Random, ring: &Ring) -> u32 {
    let step = random.pick(&[ring.size, ring.bytes()]);
    let count = random.count(step);
    let some = random.below(ring.size);
    let inside = random.pick(&[0, 16, some]);
    let placed = counts::start(count, ring.size).wrapping_add(inside);
    random.pick(&[placed, placed, placed, count])
}

/// A read count close to the write count, mostly such as one history has.
fn read(random: &mut Random, ring: &Ring) -> u32 {
    let at = counts::start(ring.write, ring.size);
    let behind = random.below(ring.parts + 2) * ring.size;
    let right = at.wrapping_sub(behind);
    let any = position(random, ring);
    let next = random.near(right);
    random.pick(&[right, right, right, right, next, any])
}

/// A commit count at or next to a multiple of S, or by a header or any record short
/// of it.
fn commit(random: &mut Random, size: u32) -> u32 {
    let whole = counts::start(random.count(size), size);
    let short = whole.wrapping_sub(random.below(size));
    let header = whole.wrapping_sub(16);
    let next = random.near(whole);
    random.pick(&[whole, whole, short, header, next])
}

/// A commit seq at or next to the commit count, or a round away from it.
fn seq(random: &mut Random, size: u32, commit: u32) -> u32 {
    let whole = counts::start(commit, size);
    let (before, after) = (whole.wrapping_sub(size), whole.wrapping_add(size));
    let next = random.near(commit);
    let any = random.any();
    random.pick(&[whole, before, before, after, commit, next, any])
}

/// A producer that is mostly in a phase that fits.
fn producer(random: &mut Random, ring: &Ring) -> Producer {
    let size = ring.size;
    let w = held_write_count(random, ring);
    let z = record_size(random, w, size);
    let done = bytes_written(random, z);
    let any = random.any();
    let mut producer = Producer {
        phase: random.pick(&[phase::IDLE, 20, 21, 255, 256 + any % 20, any]),
        z,
        w,
        full: random.below(2) == 0,
        done,
        v: commit(random, size),
        s: commit(random, size),
    };
    let rows = 1 + random.below(19);
    let fitting: Vec<u32> = (1..20)
        .filter(|&phase| Producer { phase, ..producer }.fits(size))
        .collect();
    match random.below(16) {
        0 => (),
        1..4 => producer.phase = rows,
        _ if fitting.is_empty() => producer.phase = rows,
        _ => producer.phase = random.pick(&fitting),
    }
    producer
}

/// Often the write count itself, so that a swap succeeds.
fn held_write_count(random: &mut Random, ring: &Ring) -> u32 {
    let (write, size) = (ring.write, ring.size);
    let start = counts::start(write, size);
    let next = random.near(write);
    let any = position(random, ring);
    random.pick(&[write, write, write, write, next, start, any, any])
}

/// The size of a record that fits by a hair or not, of any record, that of a flush,
/// or garbage.
fn record_size(random: &mut Random, w: u32, size: u32) -> u32 {
    let (least, most) = (4, size - 16);
    let left = counts::left(w, size);
    let exact = left.clamp(least, most);
    let over = (left + 1).clamp(least, most);
    let some = least + random.below(most - 3);
    let any = random.any();
    match random.below(32) {
        0 => random.pick(&[1, 2, 3, most + 1, size, any]),
        _ => random.pick(&[0, 0, least, most, exact, exact, over, some, some]),
    }
}

fn bytes_written(random: &mut Random, z: u32) -> u32 {
    let some = random.below(z.saturating_add(1));
    let eights = some / 8 * 8;
    let any = random.any();
    match random.below(32) {
        0 => random.pick(&[z.wrapping_add(1), z.wrapping_add(8), any]),
        _ => random.pick(&[0, eights, eights, some, z, z.saturating_sub(1)]),
    }
}

/// Leads the counts that the next step of producer `p` looks at to the edges of what
/// it asks.
pub fn aim(random: &mut Random, ring: &mut Ring, p: u32) {
    let Some(producer) = ring.producer.get(p as usize).copied() else {
        return;
    };
    let size = ring.size;
    let place = producer.place(size);
    let (x, m) = match producer.phase {
        phase::JUDGE => {
            let behind = random.pick(&[ring.bytes(), ring.bytes() - size, HALF]);
            ring.read = random.near(place.t.wrapping_sub(behind));
            return;
        }
        phase::CLOSE_ADD..=phase::CLOSE_SET => (producer.w, counts::left(producer.w, size)),
        phase::OPEN_ADD..=phase::OPEN_SET => (place.t, 16),
        phase::SLOT_ADD..=phase::SLOT_SET => (place.a, producer.z),
        _ => return,
    };
    let i = ring.part(x);
    let whole = counts::start(ring.commit[i], size);
    ring.commit[i] = random.pick(&[whole, whole.wrapping_sub(m), ring.commit[i]]);
    let ahead = random.pick(&[0, 1, size, size, HALF - 1, HALF, HALF + 1, u32::MAX]);
    let producer = &mut ring.producer[p as usize];
    producer.v = ring.seq[i].wrapping_add(ahead);
    producer.s = random.pick(&[ring.seq[i], ring.seq[i], producer.s]);
}

/// Makes the first few sub-buffers from the read count on ready, and the one after
/// them not quite.
pub fn ready(random: &mut Random, ring: &mut Ring) {
    let count = random.below(ring.parts + 1);
    for k in 0..count {
        let r = ring.read.wrapping_add(k * ring.size);
        ring.seq[ring.part(r)] = ready_seq(random, ring, r);
    }
    if count < ring.parts {
        let r = ring.read.wrapping_add(count * ring.size);
        let off = random.pick(&[1, u32::MAX, ring.size, ring.size.wrapping_neg(), 1 << 27]);
        ring.seq[ring.part(r)] = ready_seq(random, ring, r).wrapping_add(off);
    }
}

/// A commit seq with which the sub-buffer at `r` is ready. A commit count comes
/// around N times more slowly than a position, so there are N of them.
fn ready_seq(random: &mut Random, ring: &Ring, r: u32) -> u32 {
    let lap = (1u64 << 32) / u64::from(ring.parts);
    let laps = random.below(ring.parts) * lap as u32;
    counts::to_commit(r, ring.size, ring.parts)
        .wrapping_add(ring.size)
        .wrapping_add(laps)
}

/// Changes a few fields of a state.
pub fn damage(random: &mut Random, ring: &mut Ring) {
    let other = near(random, Shape::of(ring));
    let i = random.below(ring.parts) as usize;
    let p = random.below(ring.producers) as usize;
    for _ in 0..=random.below(3) {
        let (to, from) = (&mut ring.producer[p], &other.producer[p]);
        match random.below(13) {
            0 => ring.write = random.near(ring.write),
            1 => ring.read = random.near(ring.read),
            2 => ring.read = other.read,
            3 => ring.commit[i] = random.near(ring.commit[i]),
            4 => ring.seq[i] = seq(random, ring.size, ring.commit[i]),
            5 => to.phase = random.below(21),
            6 => to.z = record_size(random, to.w, ring.size),
            7 => to.w = from.w,
            8 => to.full = !to.full,
            9 => to.done = from.done,
            10 => to.v = from.v,
            11 => to.s = from.s,
            _ => ring.holding = !ring.holding,
        }
    }
}
