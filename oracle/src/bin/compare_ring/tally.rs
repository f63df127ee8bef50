//! What the compared calls have met.

use std::ops::Range;

use oracle::answers::{Answers, Call};
use oracle::counts;
use oracle::report::Line;
use oracle::ring::{phase, Producer, Ring};
use oracle::rows::Rows;

use crate::probe::{self, Function};

/// The answers of the calls that answer a number of document 01's table.
const CALLS: [Call; 7] = [
    ("fresh", &[0, 1, 2]),
    ("offer", &[0, 1, 3, 4, 5]),
    ("flush", &[0, 1, 3, 4]),
    ("step", &[0, 1, 3, 6, 18]),
    ("run", &[0, 1, 3, 6, 18]),
    ("get", &[0, 1, 7, 8]),
    ("put", &[0, 1, 9]),
];

oracle::tally! {
    /// How often each kind of case occurred, beside answers and rows.
    "refused with 1" {
        offer_shape: "offer for its shape",
        offer_desks: "offer for its desks",
        step_shape: "step for its shape",
        step_memory: "step for its memory",
        step_desks: "step for its desks",
    }
    "refused with 18" {
        wrong_z: "z",
        wrong_done: "bytes written",
        no_row: "no row",
        flush_misplaced: "flush in an event's row",
        flush_on_boundary: "flush with o = 0",
        nothing_closed: "nothing closed",
        nothing_entered: "nothing entered",
        no_end: "e mod S not 0",
    }
    "refused in order" {
        offer_3_not_4: "offer with 3, not 4",
        offer_4_not_5: "offer with 4, not 5",
        step_1_not_3: "step with 1, not 3",
        step_3_not_6: "step with 3, not 6",
        step_6_not_18: "step with 6, not 18",
        get_8_not_7: "get with 8, not 7",
    }
    "garbage" {
        set_again: "set again",
        stored_behind: "set that stores what doesn't raise",
        nothing_left: "write with nothing left",
        full_inside: "full with nothing entered",
    }
    "wraps through zero" {
        read_wraps: "read",
        commit_wraps: "commit",
        seq_wraps: "seq",
        offered_wraps: "offered",
        written_wraps: "written",
        lost_wraps: "lost",
    }
    "ready count" {
        ready_refused: "refused",
        ready_0: "0",
        ready_1: "1",
        ready_2: "2 of more",
        ready_3: "3 of more",
        ready_many: "above 3 of more",
        ready_all_2: "all 2",
        ready_all_4: "all 4",
        ready_all_8: "all 8",
        ready_all_16: "all 16",
        ready_by_lap: "at first only modulo 2^32 / N",
    }
    "held" {
        held_first: "the first",
        held_later: "a later one",
        held_nothing: "nothing held",
        held_shape: "refused for its shape",
        held_length: "refused for the length",
    }
    "largest ring" {
        large_step: "step",
        large_run: "run",
        large_offer: "offer",
    }
}

pub struct Met {
    tally: Tally,
    answers: Answers,
    rows: Rows,
}

impl Met {
    pub fn new() -> Self {
        Met {
            tally: Tally::default(),
            answers: Answers::new(&CALLS),
            rows: Rows::default(),
        }
    }

    pub fn lines(&self) -> Vec<Line> {
        let mut lines = self.answers.lines();
        lines.extend(self.rows.lines());
        lines.push(self.rows.garbage_line());
        lines.extend(self.tally.lines());
        lines
    }

    /// Counts the answer, and gives it as a number.
    pub fn answer(&mut self, function: &Function, own: Result<Ring, u32>) -> u32 {
        let number = own.err().unwrap_or(0);
        self.answers.count(function.name, number);
        number
    }

    pub fn offer(&mut self, ring: &Ring, p: u32, payload: &[u8], own: Result<Ring, u32>) {
        let busy = ring
            .producer
            .get(p as usize)
            .is_some_and(|producer| producer.phase != phase::IDLE);
        let number = self.answer(&probe::OFFER, own);
        let tally = &mut self.tally;
        match number {
            1 if ring.allowed() => tally.offer_desks += 1,
            1 => tally.offer_shape += 1,
            3 => tally.offer_3_not_4 += u64::from(busy),
            4 => tally.offer_4_not_5 += u64::from(payload.len() > ring.longest() as usize),
            _ => (),
        }
        if let Ok(after) = own {
            tally.offered_wraps += u64::from(after.offered < ring.offered);
            tally.large_offer += u64::from(is_largest(ring));
        }
    }

    pub fn step(
        &mut self,
        ring: &Ring,
        p: u32,
        memory: &[u8],
        desks: &[u8],
        own: Result<Ring, u32>,
    ) {
        let number = self.answer(&probe::STEP, own);
        if let Ok(after) = own {
            self.tally.large_step += u64::from(is_largest(ring));
            return self.performed(p, ring, &after);
        }
        let producer = ring.producer.get(p as usize);
        let tally = &mut self.tally;
        tally.step_1_not_3 += u64::from(number == 1 && p >= ring.producers);
        match (number, producer) {
            (1, _) if !ring.allowed() => tally.step_shape += 1,
            (1, _) if memory.len() != ring.bytes() as usize => tally.step_memory += 1,
            (1, _) if desks.len() != ring.desk_bytes() as usize => tally.step_desks += 1,
            (3, Some(producer)) => tally.step_3_not_6 += u64::from(producer.phase == phase::IDLE),
            (6, Some(producer)) => {
                let reading = Producer {
                    phase: phase::READ,
                    ..*producer
                };
                tally.step_6_not_18 += u64::from(!reading.fits(ring.size));
            }
            (18, Some(producer)) => tally.misfit(producer, ring.size),
            _ => (),
        }
    }

    pub fn run(
        &mut self,
        ring: &Ring,
        p: u32,
        memory: &[u8],
        desks: &[u8],
        own: Result<Ring, u32>,
    ) {
        self.answer(&probe::RUN, own);
        if own.is_ok() {
            self.tally.large_run += u64::from(is_largest(ring));
        }
        let (mut before, mut memory) = (*ring, memory.to_vec());
        while let Ok(after) = before.step(p, &mut memory, desks) {
            self.performed(p, &before, &after);
            before = after;
        }
    }

    /// Counts a step that was done.
    fn performed(&mut self, p: u32, before: &Ring, after: &Ring) {
        self.rows.step(p, before, after);
        let then = &before.producer[p as usize];
        let now = &after.producer[p as usize];
        let tally = &mut self.tally;
        match then.phase {
            phase::CLOSE_SET | phase::OPEN_SET | phase::SLOT_SET => {
                let stored = now.s == then.s;
                let raises = counts::raises(then.v, then.s);
                tally.set_again += u64::from(now.phase == then.phase);
                tally.stored_behind += u64::from(stored && !raises);
                tally.seq_wraps += u64::from(stored && raises && then.v < then.s);
            }
            phase::WRITE => tally.nothing_left += u64::from(now.done == then.done),
            phase::SWAP => {
                let enters = then.place(before.size).enters;
                let lost = after.lost != before.lost;
                tally.full_inside += u64::from(lost && !enters);
            }
            _ => (),
        }
        let mut commits = after.commit.iter().zip(&before.commit);
        tally.commit_wraps += u64::from(commits.any(|(after, before)| after < before));
        tally.written_wraps += u64::from(after.written < before.written);
        tally.lost_wraps += u64::from(after.lost < before.lost);
    }

    pub fn get(&mut self, ring: &Ring, own: Result<Ring, u32>) {
        let number = self.answer(&probe::GET, own);
        let ready = ring.ready_count() > 0;
        self.tally.get_8_not_7 += u64::from(number == 8 && !ready);
    }

    pub fn put(&mut self, ring: &Ring, own: Result<Ring, u32>) {
        self.answer(&probe::PUT, own);
        let wraps = own.is_ok_and(|after| after.read < ring.read);
        self.tally.read_wraps += u64::from(wraps);
    }

    pub fn ready_count(&mut self, ring: &Ring, own: u32) {
        let tally = &mut self.tally;
        let kind = match (own, ring.parts) {
            _ if !ring.allowed() => &mut tally.ready_refused,
            (2, 2) => &mut tally.ready_all_2,
            (4, 4) => &mut tally.ready_all_4,
            (8, 8) => &mut tally.ready_all_8,
            (16, 16) => &mut tally.ready_all_16,
            (0, _) => &mut tally.ready_0,
            (1, _) => &mut tally.ready_1,
            (2, _) => &mut tally.ready_2,
            (3, _) => &mut tally.ready_3,
            _ => &mut tally.ready_many,
        };
        *kind += 1;
        if own > 0 {
            let before = counts::commit_since(ring.seq[ring.part(ring.read)], ring.size);
            let raw = before == counts::to_commit(ring.read, ring.size, ring.parts);
            tally.ready_by_lap += u64::from(!raw);
        }
    }

    pub fn held(&mut self, ring: &Ring, length: u64, own: &Range<usize>) {
        let tally = &mut self.tally;
        let kind = match own.start {
            _ if !ring.allowed() => &mut tally.held_shape,
            _ if length != u64::from(ring.bytes()) => &mut tally.held_length,
            _ if !ring.holding => &mut tally.held_nothing,
            0 => &mut tally.held_first,
            _ => &mut tally.held_later,
        };
        *kind += 1;
    }
}

impl Tally {
    /// Counts why refusal 18 applies; of several reasons the first.
    fn misfit(&mut self, producer: &Producer, size: u32) {
        let Producer { phase, z, done, .. } = *producer;
        let kind = match phase {
            _ if z != 0 && !(4..=size - 16).contains(&z) => &mut self.wrong_z,
            _ if done > z => &mut self.wrong_done,
            _ if phase as usize >= phase::COUNT => &mut self.no_row,
            phase::SWAP..=phase::CLOSE_SET if z == 0 => &mut self.flush_on_boundary,
            _ if z == 0 => &mut self.flush_misplaced,
            phase::CLOSE..=phase::CLOSE_SET => &mut self.nothing_closed,
            phase::OPEN..=phase::OPEN_SET => &mut self.nothing_entered,
            _ => &mut self.no_end,
        };
        *kind += 1;
    }
}

fn is_largest(ring: &Ring) -> bool {
    (ring.size, ring.parts, ring.producers) == (4_096, 16, 8)
}
