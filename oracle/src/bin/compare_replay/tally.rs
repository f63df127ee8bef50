//! What the scripts have met.

use oracle::answers::{Answers, Call};
use oracle::counts;
use oracle::replay::Line;
use oracle::report::Outcome;
use oracle::ring::{Ring, MOST_PARTS};
use oracle::rows::Rows;

use crate::bad;

/// The answers that a script can get. Its first line is apart.
const CALLS: [Call; 7] = [
    ("later new", &[0, 1, 2]),
    ("offer", &[0, 3, 4, 5]),
    ("flush", &[0, 3, 4]),
    ("step", &[0, 3, 6]),
    ("run", &[0, 3, 6]),
    ("get", &[0, 7, 8]),
    ("put", &[0, 9]),
];

oracle::tally! {
    /// How often each kind of case occurred, beside answers and rows.
    "scripts" {
        scripts: "in all",
        lines: "lines that printed",
        ended_bad: "ended by a bad line",
        ended_good: "ended by a good one",
        no_line_end: "without a last line end",
        empty: "empty",
    }
    "first line" {
        first_other: "another call",
        first_refused_1: "new refused with 1",
        first_refused_2: "new refused with 2",
        first_bad: "bad form",
    }
    "starts" {
        start_zero: "0",
        start_after_zero: "after zero",
        start_before_zero: "before zero",
        start_elsewhere: "elsewhere",
    }
    "histories" {
        long_of_busy: "offer refused with 4 though 5 holds too",
        untouched: "get refused though commit mod S = 0",
        set_by_other: "seq set by another than the last adder",
        fits_after_loss: "event that fits after a loss",
        read_wraps: "read through zero",
    }
}

/// All counts, and what they need to know of the ring at hand.
pub struct Met {
    pub tally: Tally,
    answers: Answers,
    rows: Rows,
    bad: [u64; bad::KINDS.len()],
    /// Who completed each sub-buffer by its add.
    completed_by: [Option<u32>; MOST_PARTS],
    /// An event was lost, and nothing was put since.
    lost: bool,
}

impl Met {
    pub fn new() -> Self {
        Met {
            tally: Tally::default(),
            answers: Answers::new(&CALLS),
            rows: Rows::default(),
            bad: [0; bad::KINDS.len()],
            completed_by: [None; MOST_PARTS],
            lost: false,
        }
    }

    /// How many scripts were compared and what they met, once all of them agree.
    pub fn finish(self) -> Outcome {
        let names = bad::KINDS.iter().map(|(name, _)| *name);
        let mut lines = self.tally.lines();
        lines.extend(self.answers.lines());
        lines.extend(self.rows.lines());
        lines.push(("bad lines", names.zip(self.bad).collect()));
        Ok((self.tally.scripts, lines))
    }

    /// Counts a script on which both programs agree.
    pub fn script(&mut self, script: &[u8], output: &str) {
        let bad = output.ends_with("bad line\n");
        let tally = &mut self.tally;
        tally.scripts += 1;
        tally.lines += output.lines().count() as u64;
        tally.ended_bad += u64::from(bad);
        tally.ended_good += u64::from(!bad && !output.is_empty());
        tally.no_line_end += u64::from(script.last().is_some_and(|&byte| byte != b'\n'));
        tally.empty += u64::from(script.is_empty());
    }

    pub fn bad(&mut self, kind: usize) {
        self.bad[kind] += 1;
    }

    /// A ring begins.
    pub fn begin(&mut self, ring: &Ring) {
        self.completed_by = [None; MOST_PARTS];
        self.lost = false;
        let tally = &mut self.tally;
        let near = 4 * ring.bytes();
        let start = match ring.write {
            0 => &mut tally.start_zero,
            after if after <= near => &mut tally.start_after_zero,
            before if before.wrapping_neg() <= near => &mut tally.start_before_zero,
            _ => &mut tally.start_elsewhere,
        };
        *start += 1;
    }

    /// Counts a call by its answer, and what it did; of a run, its first step.
    pub fn call(&mut self, line: Line, answer: u32, before: &Ring, after: &Ring) {
        self.answers.count(name(line), answer);
        let tally = &mut self.tally;
        match (line, answer) {
            (Line::New { .. }, 0) => self.begin(after),
            (Line::Offer { length, .. }, 4) => {
                let long = u32::from(length) > before.longest();
                tally.long_of_busy += u64::from(long);
            }
            (Line::Step { p } | Line::Run { p }, 0) => self.step(p, before, after),
            (Line::Get, 7) => {
                let count = before.commit[before.part(before.read)];
                tally.untouched += u64::from(counts::round(count, before.size));
            }
            (Line::Put, 0) => {
                tally.read_wraps += u64::from(after.read < before.read);
                self.lost = false;
            }
            _ => (),
        }
    }

    /// Counts a step that was done.
    pub fn step(&mut self, p: u32, before: &Ring, after: &Ring) {
        self.rows.step(p, before, after);
        if let Some(i) = changed(&before.commit, &after.commit) {
            if counts::round(after.commit[i], after.size) {
                self.completed_by[i] = Some(p);
            }
        }
        if let Some(i) = changed(&before.seq, &after.seq) {
            self.tally.set_by_other += u64::from(self.completed_by[i] != Some(p));
        }
        self.lost |= after.lost != before.lost;
        if after.write != before.write {
            let producer = &before.producer[p as usize];
            let inside = producer.z > 0 && !producer.place(before.size).enters;
            self.tally.fits_after_loss += u64::from(self.lost && inside);
        }
    }
}

/// The call that a line makes.
fn name(line: Line) -> &'static str {
    match line {
        Line::New { .. } => "later new",
        Line::Offer { .. } => "offer",
        Line::Flush { .. } => "flush",
        Line::Step { .. } => "step",
        Line::Run { .. } => "run",
        Line::Get => "get",
        Line::Put => "put",
    }
}

/// The place at which two lists differ.
fn changed(before: &[u32], after: &[u32]) -> Option<usize> {
    before.iter().zip(after).position(|(x, y)| x != y)
}
