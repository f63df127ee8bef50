//! Random histories of a ring. Each call is chosen by the state of the ring, so that
//! what is rare by chance alone occurs: full rings, exact fits, stale counts and
//! rivals for a seq. Calls are lines of the replay program.

use crate::counts;
use crate::edges::{HALF, PARTS, SIZES};
use crate::random::Random;
use crate::replay::Line;
use crate::ring::{phase, Producer, Ring};

/// S, N and P.
#[derive(Clone, Copy, Debug)]
pub struct Shape {
    pub size: u32,
    pub parts: u32,
    pub producers: u32,
}

impl Shape {
    /// Every S, N and P together.
    pub fn all() -> impl Iterator<Item = Shape> {
        let sizes = SIZES.into_iter();
        let pairs = sizes.flat_map(|size| PARTS.map(|parts| (size, parts)));
        pairs.flat_map(|(size, parts)| {
            (1..=8).map(move |producers| Shape {
                size,
                parts,
                producers,
            })
        })
    }

    pub fn of(ring: &Ring) -> Self {
        Shape {
            size: ring.size,
            parts: ring.parts,
            producers: ring.producers,
        }
    }

    pub fn new_line(self, start: u32) -> Line {
        Line::New {
            size: self.size,
            parts: self.parts,
            producers: self.producers,
            start,
        }
    }

    /// A start that is allowed: zero, close to zero from either side or to the
    /// middle of the range, or any.
    pub fn start(self, random: &mut Random) -> u32 {
        let any = random.any();
        let rings = random.pick(&[0, 0, 1, 2, u32::MAX, u32::MAX, u32::MAX - 1, any]);
        let base = random.pick(&[0, 0, 0, HALF]);
        (self.size * self.parts)
            .wrapping_mul(rings)
            .wrapping_add(base)
    }
}

/// The habits of one history.
pub struct Chooser {
    /// Of 32 lines, how many are the reader's.
    reads: u32,
    /// Of 32 turns of a busy producer, how many are runs.
    runs: u32,
    /// Of 32 turns of an idle producer, how many are flushes.
    flushes: u32,
    /// Lengths below this are the usual ones; 0 if none is.
    small: u32,
    /// One who would look at a sub-buffer that isn't complete mostly waits. So it
    /// goes on together with the one who completes it.
    patient: bool,
    asleep: Option<Sleep>,
}

/// A producer left alone: meanwhile the ring moves on, and what it holds grows
/// stale.
struct Sleep {
    p: u32,
    /// The others make haste to go all round the ring.
    hasty: bool,
    /// The write count at its beginning. It ends once the write count has moved by
    /// this distance, or after so many lines.
    from: u32,
    distance: u32,
    lines: u32,
}

impl Chooser {
    pub fn new(random: &mut Random) -> Self {
        Chooser {
            reads: random.pick(&[1, 4, 8]),
            runs: random.pick(&[0, 0, 2, 8, 32]),
            flushes: random.pick(&[0, 2, 8]),
            small: random.pick(&[0, 9, 9, 40]),
            patient: random.below(2) == 0,
            asleep: None,
        }
    }

    /// The next call.
    pub fn line(&mut self, random: &mut Random, ring: &Ring) -> Line {
        if random.below(24) == 0 {
            return refused(random, ring);
        }
        let reads = if self.hasty() { 16 } else { self.reads };
        if random.below(32) < reads {
            if let Some(line) = reader(random, ring) {
                return line;
            }
        }
        let p = self.turn(random, ring);
        let producer = &ring.producer[p as usize];
        if producer.phase == phase::IDLE {
            return self.begin(random, ring, p);
        }
        self.go_on(random, producer, p)
    }

    /// The producer whose turn it is.
    fn turn(&mut self, random: &mut Random, ring: &Ring) -> u32 {
        let p = self.awake(random, ring);
        if self.patient && looks_early(ring, p) && random.below(8) > 0 {
            return self.turn(random, ring);
        }
        p
    }

    /// Some producer that isn't asleep, if there is another one.
    fn awake(&mut self, random: &mut Random, ring: &Ring) -> u32 {
        let p = random.below(ring.producers);
        let Some(mut sleep) = self.asleep.take() else {
            self.fall_asleep(random, ring, p);
            return p;
        };
        let other = 1 + random.below(ring.producers - 1);
        let stepped = if p == sleep.p { p + other } else { p };
        let moved = counts::position_since(ring.write, sleep.from);
        sleep.lines -= 1;
        if moved < sleep.distance && sleep.lines > 0 {
            self.asleep = Some(sleep);
        }
        stepped % ring.producers
    }

    /// Now and then leaves a producer alone: `p`, or one that has a rival.
    fn fall_asleep(&mut self, random: &mut Random, ring: &Ring, p: u32) {
        let rivals = rivals(ring);
        let (p, chance) = if rivals.is_empty() {
            (p, 8)
        } else {
            (random.pick(&rivals), 2)
        };
        if random.below(chance) > 0 {
            return;
        }
        let hasty = random.below(chance) == 0;
        self.asleep = Some(Sleep {
            p,
            hasty,
            from: ring.write,
            distance: if hasty { ring.bytes() + ring.size } else { 1 },
            lines: random.pick(&[4, 12, 120]),
        });
    }

    fn hasty(&self) -> bool {
        self.asleep.as_ref().is_some_and(|sleep| sleep.hasty)
    }

    /// An offer or a flush of an idle producer.
    fn begin(&self, random: &mut Random, ring: &Ring, p: u32) -> Line {
        if random.below(32) < self.flushes {
            return Line::Flush { p };
        }
        Line::Offer {
            p,
            kind: random.any() as u8,
            length: self.length(random, ring),
        }
    }

    /// A payload length that an event may have: one that fills the current
    /// sub-buffer or is too long for it by a byte, or a usual one.
    fn length(&self, random: &mut Random, ring: &Ring) -> u16 {
        let longest = ring.longest();
        let left = counts::left(ring.write, ring.size);
        let exact = left.saturating_sub(4).min(longest);
        let over = (exact + 1).min(longest);
        let any = match self.small {
            0 => random.below(longest + 1),
            small => random.below(small.min(longest + 1)),
        };
        random.pick(&[any, any, any, any, 0, exact, over, longest]) as u16
    }

    /// A step or a run of a busy producer. The rest of a long record is run, or the
    /// history would hold little else.
    fn go_on(&self, random: &mut Random, producer: &Producer, p: u32) -> Line {
        let long = producer.phase == phase::WRITE && producer.z - producer.done > 200;
        let runs = if self.hasty() { 24 } else { self.runs };
        if random.below(32) < runs || long && random.below(2) == 0 {
            return Line::Run { p };
        }
        Line::Step { p }
    }
}

/// Whether the next step of `p` would look at a sub-buffer that isn't complete.
fn looks_early(ring: &Ring, p: u32) -> bool {
    let looks = [phase::CLOSE_LOOK, phase::SLOT_LOOK].contains(&ring.producer[p as usize].phase);
    looks && committing(ring, p).is_some_and(|i| !counts::round(ring.commit[i], ring.size))
}

/// The sub-buffer that `p` has yet to look at, or whose seq it has yet to see or
/// set. A header's commit is left out: its look always ends it.
fn committing(ring: &Ring, p: u32) -> Option<usize> {
    let producer = &ring.producer[p as usize];
    match producer.phase {
        phase::CLOSE_LOOK..=phase::CLOSE_SET => Some(ring.part(producer.w)),
        phase::SLOT_LOOK..=phase::SLOT_SET => Some(ring.part(producer.place(ring.size).a)),
        _ => None,
    }
}

/// Producers that commit to the same sub-buffer as another one. While one of them
/// is left alone, the other sets the seq.
fn rivals(ring: &Ring) -> Vec<u32> {
    let parts: Vec<_> = (0..ring.producers).map(|p| committing(ring, p)).collect();
    let is_rival = |p: &u32| {
        let part = parts[*p as usize];
        part.is_some() && parts.iter().filter(|&&other| other == part).count() > 1
    };
    (0..ring.producers).filter(is_rival).collect()
}

/// What the reader can do, if it can do anything; now and then it gets too early.
fn reader(random: &mut Random, ring: &Ring) -> Option<Line> {
    let early = random.below(8) == 0;
    if ring.holding {
        return Some(Line::Put);
    }
    (early || ring.ready_count() > 0).then_some(Line::Get)
}

/// A call that is refused, or a later `new`.
fn refused(random: &mut Random, ring: &Ring) -> Line {
    let p = random.below(ring.producers);
    let none = random.pick(&[ring.producers, ring.producers + 1, 8, u32::MAX]);
    let kind = random.any() as u8;
    let by_one = ring.longest() as u16 + 1;
    let too_long = random.pick(&[by_one, ring.size as u16, u16::MAX]);
    let length = random.pick(&[0, 2, too_long]);
    match random.below(12) {
        0 => Line::Offer { p, kind, length },
        1 => Line::Offer {
            p,
            kind,
            length: too_long,
        },
        2 => Line::Offer {
            p: none,
            kind,
            length,
        },
        3 => Line::Flush { p },
        4 => Line::Flush { p: none },
        5 => Line::Step { p },
        6 => Line::Step { p: none },
        7 => Line::Run { p },
        8 => Line::Run { p: none },
        9 => Line::Get,
        10 => Line::Put,
        _ => later_new(random, ring),
    }
}

/// A `new` that is mostly refused; one that isn't starts a ring of the same shape.
fn later_new(random: &mut Random, ring: &Ring) -> Line {
    let mut shape = Shape::of(ring);
    let mut start = shape.start(random);
    match random.below(5) {
        0 => shape.size += 1,
        1 => shape.parts += 1,
        2 => shape.producers += 8,
        3 => start = start.wrapping_add(shape.size),
        _ => (),
    }
    shape.new_line(start)
}
