//! What the compared cases have met.

use oracle::layout::{self, Decoded};

oracle::tally! {
    /// How often each kind of case occurred.
    "decode" {
        decode_done: "done",
        decode_full: "full to S",
        decode_below: "exact end below S",
        decode_empty_payload: "with an empty payload",
    }
    "decode refused" {
        decode_10: "10",
        decode_11: "11",
        decode_12: "12",
        decode_13: "13",
        decode_14: "14",
        decode_15: "15",
        decode_16: "16",
    }
    "decode refused with 15" {
        decode_head: "head cut off",
        decode_by_one: "by one byte",
        decode_not_16: "though 16 holds too",
    }
    "run" {
        run_room: "room beyond it",
        run_exact: "room for it alone",
        run_by_one: "one byte too little",
        run_short: "too little",
        run_refused: "empty",
    }
    "lay_out" {
        lay_done: "done",
        lay_full: "full to S",
        lay_below: "exact end below S",
        lay_empty_payload: "with an empty payload",
        lay_and_back: "round trip",
    }
    "lay_out refused" {
        lay_10: "10",
        lay_14: "14",
        lay_15: "15",
        lay_16: "16",
        lay_17_empty: "17 (empty)",
        lay_17_long: "17 (too long)",
    }
    "lay_out refused with 15" {
        lay_head: "head cut off",
        lay_by_one: "by one byte",
        lay_not_16: "though 16 holds too",
    }
    "write_header" {
        header_written: "written",
        header_alone: "no more than a header",
        header_left: "left",
    }
    "write_used" {
        used_written: "written",
        used_wraps: "modulo 65,536",
        used_left: "left",
    }
    "lay_record" {
        record_laid: "laid",
        record_exact: "fills the desk",
        record_empty_payload: "with an empty payload",
        record_longest: "with the longest payload",
        record_by_one: "left by one byte",
        record_left: "left",
        record_too_long: "left for its payload alone",
    }
    "copy" {
        copied: "copied",
        copied_nothing: "nothing to copy",
        copy_left: "left",
    }
}

impl Tally {
    pub fn decode(&mut self, part: &[u8], own: Result<Decoded, u32>) {
        match own {
            Ok(decoded) => {
                let full = decoded.used as usize == part.len();
                self.decode_done += 1;
                self.decode_full += u64::from(full);
                self.decode_below += u64::from(!full);
                self.decode_empty_payload += u64::from(has_empty_payload(layout::run(part)));
            }
            Err(10) => self.decode_10 += 1,
            Err(11) => self.decode_11 += 1,
            Err(12) => self.decode_12 += 1,
            Err(13) => self.decode_13 += 1,
            Err(14) => self.decode_14 += 1,
            Err(15) => {
                let used = u16::from_le_bytes([part[6], part[7]]);
                let passing = Passing::of(&part[16..usize::from(used)]);
                self.decode_15 += 1;
                self.decode_head += u64::from(passing.head);
                self.decode_by_one += u64::from(passing.by_one);
                self.decode_not_16 += u64::from(passing.producer);
            }
            Err(16) => self.decode_16 += 1,
            Err(number) => unreachable!("the decoder doesn't refuse with {number}"),
        }
    }

    pub fn run(&mut self, run: &[u8], out: &[u8]) {
        self.run_room += u64::from(out.len() > run.len());
        self.run_exact += u64::from(out.len() == run.len());
        self.run_by_one += u64::from(out.len() + 1 == run.len());
        self.run_short += u64::from(out.len() < run.len());
        self.run_refused += u64::from(run.is_empty());
    }

    pub fn lay_out(&mut self, run: &[u8], part: &[u8], own: Result<(), u32>) {
        match own {
            Ok(()) => {
                let full = 16 + run.len() == part.len();
                self.lay_done += 1;
                self.lay_full += u64::from(full);
                self.lay_below += u64::from(!full);
                self.lay_empty_payload += u64::from(has_empty_payload(run));
            }
            Err(10) => self.lay_10 += 1,
            Err(14) => self.lay_14 += 1,
            Err(15) => {
                let passing = Passing::of(run);
                self.lay_15 += 1;
                self.lay_head += u64::from(passing.head);
                self.lay_by_one += u64::from(passing.by_one);
                self.lay_not_16 += u64::from(passing.producer);
            }
            Err(16) => self.lay_16 += 1,
            Err(17) if run.is_empty() => self.lay_17_empty += 1,
            Err(17) => self.lay_17_long += 1,
            Err(number) => unreachable!("laying out isn't refused with {number}"),
        }
    }

    pub fn write_header(&mut self, part: &[u8]) {
        self.header_written += u64::from(part.len() >= 16);
        self.header_alone += u64::from(part.len() == 16);
        self.header_left += u64::from(part.len() < 16);
    }

    pub fn write_used(&mut self, used: u32, part: &[u8]) {
        let written = part.len() >= 16;
        self.used_written += u64::from(written);
        self.used_wraps += u64::from(written && used > 65_535);
        self.used_left += u64::from(!written);
    }

    pub fn lay_record(&mut self, payload: &[u8], desk: &[u8]) {
        let length = 4 + payload.len();
        let short_enough = payload.len() <= 65_535;
        let laid = short_enough && length <= desk.len();
        self.record_laid += u64::from(laid);
        self.record_exact += u64::from(laid && length == desk.len());
        self.record_empty_payload += u64::from(laid && payload.is_empty());
        self.record_longest += u64::from(laid && payload.len() == 65_535);
        self.record_by_one += u64::from(length == desk.len() + 1);
        self.record_left += u64::from(!laid);
        self.record_too_long += u64::from(!short_enough && length <= desk.len());
    }

    pub fn copy(&mut self, src: &[u8], dst: &[u8]) {
        let copied = src.len() == dst.len();
        self.copied += u64::from(copied);
        self.copied_nothing += u64::from(copied && src.is_empty());
        self.copy_left += u64::from(!copied);
    }
}

fn has_empty_payload(run: &[u8]) -> bool {
    layout::read_run(run)
        .is_ok_and(|records| records.iter().any(|record| record.payload.is_empty()))
}

/// How the first record that passes the end of a run does so.
struct Passing {
    /// Its head is cut off.
    head: bool,
    /// A single byte is missing.
    by_one: bool,
    /// Its producer, above 7, would be refused next.
    producer: bool,
}

impl Passing {
    fn of(mut run: &[u8]) -> Self {
        while let Some((&[low, high, _, producer], rest)) = run.split_first_chunk() {
            let length = usize::from(u16::from_le_bytes([low, high]));
            match rest.split_at_checked(length) {
                Some((_, next)) => run = next,
                None => {
                    return Passing {
                        head: false,
                        by_one: rest.len() + 1 == length,
                        producer: producer > 7,
                    }
                }
            }
        }
        Passing {
            head: true,
            by_one: run.len() == 3,
            producer: false,
        }
    }
}
