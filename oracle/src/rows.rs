//! What steps met: how often each row of the step table was performed, by events
//! and by flushes, and how it went. All of it but the two rows named below occurs
//! in histories, not only in garbage states.

use crate::counts;
use crate::report::Line;
use crate::ring::{phase, Producer, Ring};

/// The rows that a flush performs.
const FLUSH: [u32; 7] = [
    phase::READ,
    phase::SWAP,
    phase::CLOSE,
    phase::CLOSE_ADD,
    phase::CLOSE_LOOK,
    phase::CLOSE_SEE,
    phase::CLOSE_SET,
];

/// No history leads here: a header's commit never completes its sub-buffer, since
/// the slot that comes with it is not committed yet.
const GARBAGE: [u32; 2] = [phase::OPEN_SEE, phase::OPEN_SET];

crate::tally! {
    /// How the rows went.
    "slots reserved" {
        at_once: "o = 0",
        inside: "nothing entered",
        closing: "closing",
        exact_fit: "exact fit",
        exact_fit_inside: "exact fit with nothing entered",
    }
    "read of a flush" {
        flush_idle: "on a boundary",
        flush_goes_on: "within a sub-buffer",
    }
    "judge" {
        room: "room",
        full: "full",
        full_by_b: "full by exactly B",
        full_behind: "full for a t behind the read count",
    }
    "swap" {
        swapped: "done with room",
        lost: "full confirmed",
        swapped_flush: "done for a flush",
        failed_room: "failed with room",
        failed_full: "failed with full",
        failed_flush: "failed for a flush",
        write_wraps: "write through zero",
    }
    "write" {
        wrote_eight: "8 bytes",
        wrote_fewer: "fewer",
    }
    "look" {
        look_done: "done",
        look_goes_on: "goes on",
    }
    "see" {
        raise: "raise",
        equal: "done (0)",
        behind: "done (at least 2^31)",
    }
    "set" {
        stored: "stores",
        ended_equal: "ends (0)",
        ended_behind: "ends (at least 2^31)",
    }
}

/// The counts of the rows, and how they went.
#[derive(Default)]
pub struct Rows {
    event: [u64; phase::COUNT],
    flush: [u64; phase::COUNT],
    went: Tally,
}

impl Rows {
    /// Counts a step of producer `p` that was done.
    pub fn step(&mut self, p: u32, before: &Ring, after: &Ring) {
        let then = &before.producer[p as usize];
        let now = &after.producer[p as usize];
        let rows = match then.z {
            0 => &mut self.flush,
            _ => &mut self.event,
        };
        rows[then.phase as usize] += 1;
        self.went.step(then, now, before, after);
    }

    /// What histories meet.
    pub fn lines(&self) -> Vec<Line> {
        let all = 1..phase::COUNT as u32;
        let events = all.filter(|row| !GARBAGE.contains(row));
        let mut lines = vec![
            ("rows of events", named(&self.event, events)),
            ("rows of flushes", named(&self.flush, FLUSH)),
        ];
        lines.extend(self.went.lines());
        lines
    }

    /// What only garbage states meet.
    pub fn garbage_line(&self) -> Line {
        ("rows of events in garbage", named(&self.event, GARBAGE))
    }
}

fn named(
    rows: &[u64; phase::COUNT],
    phases: impl IntoIterator<Item = u32>,
) -> Vec<(&'static str, u64)> {
    let phases = phases.into_iter().map(|phase| phase as usize);
    phases
        .map(|phase| (phase::NAMES[phase], rows[phase]))
        .collect()
}

impl Tally {
    fn step(&mut self, then: &Producer, now: &Producer, before: &Ring, after: &Ring) {
        match then.phase {
            phase::READ => self.read(now),
            phase::JUDGE => self.judge(now, before),
            phase::SWAP => self.swap(then, now, before, after),
            phase::WRITE => self.write(then, now),
            phase::CLOSE_LOOK | phase::OPEN_LOOK | phase::SLOT_LOOK => {
                self.look_goes_on += u64::from(now.phase == then.phase + 1);
                self.look_done += u64::from(now.phase != then.phase + 1);
            }
            phase::CLOSE_SEE | phase::OPEN_SEE | phase::SLOT_SEE => self.see(now),
            phase::CLOSE_SET | phase::OPEN_SET | phase::SLOT_SET => self.set(then, now),
            _ => (),
        }
    }

    fn read(&mut self, now: &Producer) {
        self.flush_idle += u64::from(now.phase == phase::IDLE);
        self.flush_goes_on += u64::from(now.phase == phase::SWAP);
    }

    fn judge(&mut self, now: &Producer, ring: &Ring) {
        let place = now.place(ring.size);
        let behind = counts::position_since(place.t, ring.read);
        self.room += u64::from(!now.full);
        self.full += u64::from(now.full);
        self.full_by_b += u64::from(now.full && behind == ring.bytes());
        self.full_behind += u64::from(now.full && behind >= 1 << 31);
    }

    fn swap(&mut self, then: &Producer, now: &Producer, before: &Ring, after: &Ring) {
        let failed = now.phase == phase::READ;
        let flush = then.z == 0;
        let kind = match (failed, flush, then.full) {
            (true, true, _) => &mut self.failed_flush,
            (true, false, true) => &mut self.failed_full,
            (true, false, false) => &mut self.failed_room,
            (false, true, _) => &mut self.swapped_flush,
            (false, false, true) => &mut self.lost,
            (false, false, false) => &mut self.swapped,
        };
        *kind += 1;
        self.write_wraps += u64::from(after.write < before.write);
        if !failed && !flush && !then.full {
            self.slot(then, before.size);
        }
    }

    fn slot(&mut self, producer: &Producer, size: u32) {
        let place = producer.place(size);
        self.at_once += u64::from(place.enters && !place.closes);
        self.inside += u64::from(!place.enters);
        self.closing += u64::from(place.closes);
        self.exact_fit += u64::from(place.ends);
        self.exact_fit_inside += u64::from(place.ends && !place.enters);
    }

    fn write(&mut self, then: &Producer, now: &Producer) {
        let copied = now.done - then.done;
        self.wrote_eight += u64::from(copied == 8);
        self.wrote_fewer += u64::from((1..8).contains(&copied));
    }

    fn see(&mut self, now: &Producer) {
        let ahead = counts::commit_since(now.v, now.s);
        self.raise += u64::from(counts::raises(now.v, now.s));
        self.equal += u64::from(ahead == 0);
        self.behind += u64::from(ahead >= 1 << 31);
    }

    fn set(&mut self, then: &Producer, now: &Producer) {
        // One that doesn't store sees another seq than before.
        if now.s == then.s {
            self.stored += 1;
            return;
        }
        let ahead = counts::commit_since(now.v, now.s);
        self.ended_equal += u64::from(ahead == 0);
        self.ended_behind += u64::from(ahead >= 1 << 31);
    }
}
