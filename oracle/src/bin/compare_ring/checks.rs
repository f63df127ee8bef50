//! One comparison for each call: the oracle is asked at once, the first
//! implementation through the bridge, and the kind of case is counted.

use oracle::bridge::{Bridge, Checked, Frame};
use oracle::histories::Shape;
use oracle::report::Outcome;
use oracle::ring::Ring;

use crate::probe::{self, frame, Function};
use crate::state;
use crate::tally::Met;

pub struct Checks {
    bridge: Bridge,
    cases: u64,
    met: Met,
}

impl Checks {
    pub fn new(bridge: Bridge) -> Self {
        Checks {
            bridge,
            cases: 0,
            met: Met::new(),
        }
    }

    /// How many cases were compared, and of which kinds, once all of them agree.
    pub fn finish(self) -> Outcome {
        self.bridge.finish()?;
        Ok((self.cases, self.met.lines()))
    }

    pub fn fresh(&mut self, shape: Shape, start: u32) -> Checked {
        let Shape {
            size,
            parts,
            producers,
        } = shape;
        let own = Ring::fresh(size, parts, producers, start);
        self.met.answer(&probe::FRESH, own);
        let arguments = [size, parts, producers, start].map(u64::from);
        let call = probe::FRESH.call(&arguments, Vec::new(), [&[], &[]]);
        self.agree(
            &probe::FRESH,
            call,
            answer(&Ring::default(), own, [&[], &[]]),
        )
    }

    pub fn offer(
        &mut self,
        ring: &Ring,
        p: u32,
        kind: u8,
        payload: &[u8],
        desks: &[u8],
    ) -> Checked {
        let mut after = desks.to_vec();
        let own = ring.offer(p, kind, payload, &mut after);
        self.met.offer(ring, p, payload, own);
        let arguments = [p.into(), kind.into()];
        let call = probe::OFFER.call(&arguments, state::bytes(ring), [payload, desks]);
        self.agree(&probe::OFFER, call, answer(ring, own, [payload, &after]))
    }

    pub fn flush(&mut self, ring: &Ring, p: u32) -> Checked {
        let own = ring.flush(p);
        self.met.answer(&probe::FLUSH, own);
        self.plain(&probe::FLUSH, ring, &[p.into()], own)
    }

    pub fn step(&mut self, ring: &Ring, p: u32, memory: &[u8], desks: &[u8]) -> Checked {
        let mut after = memory.to_vec();
        let own = ring.step(p, &mut after, desks);
        self.met.step(ring, p, memory, desks, own);
        let call = probe::STEP.call(&[p.into()], state::bytes(ring), [memory, desks]);
        self.agree(&probe::STEP, call, answer(ring, own, [&after, desks]))
    }

    pub fn run(&mut self, ring: &Ring, p: u32, memory: &[u8], desks: &[u8]) -> Checked {
        let mut after = memory.to_vec();
        let own = ring.run(p, &mut after, desks);
        self.met.run(ring, p, memory, desks, own);
        let call = probe::RUN.call(&[p.into()], state::bytes(ring), [memory, desks]);
        self.agree(&probe::RUN, call, answer(ring, own, [&after, desks]))
    }

    pub fn get(&mut self, ring: &Ring) -> Checked {
        let own = ring.get();
        self.met.get(ring, own);
        self.plain(&probe::GET, ring, &[], own)
    }

    pub fn put(&mut self, ring: &Ring) -> Checked {
        let own = ring.put();
        self.met.put(ring, own);
        self.plain(&probe::PUT, ring, &[], own)
    }

    pub fn ready_count(&mut self, ring: &Ring) -> Checked {
        let own = ring.ready_count();
        self.met.ready_count(ring, own);
        self.asked(&probe::READY_COUNT, ring, &[], &[own.into()])
    }

    /// Where the held part of a ring memory of this length lies.
    pub fn held(&mut self, ring: &Ring, length: u64) -> Checked {
        let own = ring.held(length as usize);
        self.met.held(ring, length, &own);
        let span = [own.start as u64, own.end as u64];
        self.asked(&probe::HELD, ring, &[length], &span)
    }

    /// A call that takes no memory.
    fn plain(
        &mut self,
        function: &'static Function,
        ring: &Ring,
        arguments: &[u64],
        own: Result<Ring, u32>,
    ) -> Checked {
        let call = function.call(arguments, state::bytes(ring), [&[], &[]]);
        self.agree(function, call, answer(ring, own, [&[], &[]]))
    }

    /// A call that only asks: the state that comes back is the one sent.
    fn asked(
        &mut self,
        function: &'static Function,
        ring: &Ring,
        arguments: &[u64],
        own: &[u64],
    ) -> Checked {
        let state = state::bytes(ring);
        let call = function.call(arguments, state.clone(), [&[], &[]]);
        self.agree(function, call, frame(own, state, [&[], &[]]))
    }

    /// Every number, every field of the state and every byte of lent memory must be
    /// the same.
    fn agree(&mut self, function: &'static Function, call: Frame, own: Frame) -> Checked {
        self.cases += 1;
        let asked = call.clone();
        self.bridge.ask(&asked, move |mut first| {
            state::clear_padding(&mut first.strings[0]);
            if first == own {
                return Ok(());
            }
            Err(function.mismatch(&call, &first, &own))
        })
    }
}

/// The answer of a call: done with the next state, or refused with that received.
fn answer(received: &Ring, own: Result<Ring, u32>, lent: [&[u8]; 2]) -> Frame {
    let code = own.err().unwrap_or(0);
    let ring = own.unwrap_or(*received);
    frame(&[code.into()], state::bytes(&ring), lent)
}
