//! One comparison for each function: the oracle is asked at once, the first
//! implementation through the bridge, and the kind of case is counted.

use oracle::bridge::{Bridge, Checked, Frame};
use oracle::counts::{self, Place};
use oracle::edges::HALF;
use oracle::report::Outcome;

use crate::probe::{self, Answer, Arguments, Function};
use crate::tally::Tally;

pub struct Checks {
    bridge: Bridge,
    cases: u64,
    tally: Tally,
}

impl Checks {
    pub fn new(bridge: Bridge) -> Self {
        Checks {
            bridge,
            cases: 0,
            tally: Tally::default(),
        }
    }

    /// How many cases were compared, and of which kinds, once all of them agree.
    pub fn finish(self) -> Outcome {
        self.bridge.finish()?;
        Ok((self.cases, self.tally.lines()))
    }

    /// The sum and the distance of two positions.
    pub fn position(&mut self, x: u32, y: u32) -> Checked {
        let (sum, distance) = (counts::position_plus(x, y), counts::position_since(x, y));
        self.tally.position_plus_wraps += u64::from(sum < x);
        self.tally.position_since_wraps += u64::from(distance > x);
        self.agree(probe::POSITION_PLUS, [x, y], sum)?;
        self.agree(probe::POSITION_SINCE, [x, y], distance)
    }

    /// The sum and the distance of two commit counts.
    pub fn commit(&mut self, x: u32, y: u32) -> Checked {
        let (sum, distance) = (counts::commit_plus(x, y), counts::commit_since(x, y));
        self.tally.commit_plus_wraps += u64::from(sum < x);
        self.tally.commit_since_wraps += u64::from(distance > x);
        self.agree(probe::COMMIT_PLUS, [x, y], sum)?;
        self.agree(probe::COMMIT_SINCE, [x, y], distance)
    }

    /// Whether S, N or P may have this value.
    pub fn allowed(&mut self, x: u32) -> Checked {
        self.agree(probe::SIZE_ALLOWED, [x], counts::size_allowed(x))?;
        self.agree(probe::PARTS_ALLOWED, [x], counts::parts_allowed(x))?;
        let own = counts::producers_allowed(x);
        self.agree(probe::PRODUCERS_ALLOWED, [x], own)
    }

    /// Whether a ring may have this S, N and P.
    pub fn shape(&mut self, size: u32, parts: u32, producers: u32) -> Checked {
        let own = counts::shape_allowed(size, parts, producers);
        self.tally.shape_allowed += u64::from(own);
        self.tally.shape_refused += u64::from(!own);
        self.agree(probe::SHAPE_ALLOWED, [size, parts, producers], own)
    }

    /// Where a position stands in its sub-buffer.
    pub fn sub_buffer(&mut self, x: u32, size: u32) -> Checked {
        let next = counts::next(x, size);
        if counts::size_allowed(size) {
            self.tally.next_wraps += u64::from(next < x);
        }
        self.agree(probe::OFFSET, [x, size], counts::offset(x, size))?;
        self.agree(probe::START, [x, size], counts::start(x, size))?;
        self.agree(probe::LEFT, [x, size], counts::left(x, size))?;
        self.agree(probe::NEXT, [x, size], next)
    }

    /// Where a slot goes.
    pub fn place(&mut self, w: u32, z: u32, size: u32, header: u32) -> Checked {
        let own = counts::place(w, z, size, header);
        let tally = &mut self.tally;
        tally.a_wraps += u64::from(own.enters && own.a < own.t);
        if allowed_event(z, size, header) {
            tally.t_wraps += u64::from(own.closes && own.t < w);
            tally.e_wraps += u64::from(own.e < own.a);
            tally.enters_at_once += u64::from(own.enters && !own.closes);
            tally.enters_nothing += u64::from(!own.enters);
            tally.closes += u64::from(own.closes);
            tally.exact_fit += u64::from(own.ends);
            tally.exact_fit_inside += u64::from(own.ends && !own.enters);
        }
        self.agree(probe::PLACE, [w, z, size, header], own)
    }

    /// Where a position stands in the ring memory, and its round's commit count.
    pub fn position_in_ring(&mut self, x: u32, size: u32, parts: u32) -> Checked {
        let inputs = [x, size, parts];
        self.agree(probe::BYTE, inputs, counts::byte(x, size, parts))?;
        self.agree(probe::PART, inputs, counts::part(x, size, parts))?;
        let own = counts::to_commit(x, size, parts);
        self.agree(probe::TO_COMMIT, inputs, own)
    }

    /// Whether an event with this place finds the ring full.
    pub fn full(&mut self, place: Place, read: u32, size: u32, parts: u32) -> Checked {
        let own = counts::full(place.enters, place.t, read, size, parts);
        let tally = &mut self.tally;
        if allowed_ring(size, parts) {
            tally.read_wraps += u64::from(place.enters && place.t < read);
            let behind = counts::position_since(place.t, read);
            tally.full += u64::from(own);
            tally.full_by_b += u64::from(own && behind == size * parts);
            tally.room += u64::from(place.enters && !own);
        }
        self.agree(probe::FULL, (place, [read, size, parts]), own)
    }

    /// Whether the sub-buffer at `r` is ready.
    pub fn ready(&mut self, r: u32, seq: u32, size: u32, parts: u32) -> Checked {
        let own = counts::ready(r, seq, size, parts);
        let tally = &mut self.tally;
        if allowed_ring(size, parts) {
            tally.seq_wraps += u64::from(own && seq < size);
            let before = counts::commit_since(seq, size);
            let raw = before == counts::to_commit(r, size, parts);
            tally.ready += u64::from(own);
            tally.ready_by_lap += u64::from(own && !raw);
            tally.not_ready += u64::from(!own);
        }
        self.agree(probe::READY, [r, seq, size, parts], own)
    }

    /// Whether a commit goes on after its look.
    pub fn round(&mut self, x: u32, size: u32) -> Checked {
        let own = counts::round(x, size);
        if counts::size_allowed(size) {
            self.tally.look_goes_on += u64::from(own);
            self.tally.look_done += u64::from(!own);
        }
        self.agree(probe::ROUND, [x, size], own)
    }

    /// Whether a commit value raises a commit seq.
    pub fn raises(&mut self, v: u32, s: u32) -> Checked {
        let own = counts::raises(v, s);
        let tally = &mut self.tally;
        tally.raise_wraps += u64::from(own && v < s);
        tally.raise += u64::from(own);
        tally.done_equal += u64::from(v == s);
        tally.done_behind += u64::from(counts::commit_since(v, s) >= HALF);
        self.agree(probe::RAISES, [v, s], own)
    }

    /// The two halves of a division.
    pub fn division(&mut self, x: u64, s: u64) -> Checked {
        let (remainder, quotient) = (counts::remainder(x, s), counts::quotient(x, s));
        let tally = &mut self.tally;
        tally.by_zero += u64::from(s == 0);
        tally.exact += u64::from(s > 0 && remainder == 0);
        tally.inexact += u64::from(s > 0 && remainder > 0);
        self.agree(probe::REMAINDER, [x, s], remainder)?;
        self.agree(probe::QUOTIENT, [x, s], quotient)
    }

    fn agree<T: Answer>(&mut self, function: Function, inputs: impl Arguments, own: T) -> Checked {
        self.cases += 1;
        let Function(number, words) = function;
        let [a, b, c, d, e, f, g] = inputs.numbers();
        let call = Frame {
            numbers: [number, a, b, c, d, e, f, g],
            ..Frame::default()
        };
        self.bridge.ask(&call, move |answer| {
            let first = match T::from_numbers(&answer.numbers) {
                Some(first) if first == own => return Ok(()),
                Some(first) => format!("{first:?}"),
                None => format!("what is no answer, {:?}", answer.numbers),
            };
            let both = format!("the first implementation answers {first}, the oracle {own:?}");
            Err(format!("{words} for {inputs:?}: {both}"))
        })
    }
}

/// A record of 4 bytes up to what a sub-buffer holds beside its header.
fn allowed_event(z: u32, size: u32, header: u32) -> bool {
    counts::size_allowed(size) && [16, 24].contains(&header) && (4..=size - header).contains(&z)
}

fn allowed_ring(size: u32, parts: u32) -> bool {
    counts::size_allowed(size) && counts::parts_allowed(parts)
}
