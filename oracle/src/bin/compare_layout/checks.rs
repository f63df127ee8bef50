//! One comparison for each function: the oracle is asked at once, the first
//! implementation through the bridge, and the kind of case is counted.

use oracle::bridge::{Bridge, Checked, Frame};
use oracle::layout::{self, Decoded};
use oracle::report::Outcome;

use crate::probe::{self, frame, hex, Function};
use crate::tally::Tally;

pub struct Checks {
    bridge: Bridge,
    cases: u64,
    tally: Tally,
}

impl Checks {
    pub fn new(bridge: Bridge) -> Self {
        Checks {
            bridge,
            cases: 0,
            tally: Tally::default(),
        }
    }

    /// How many cases were compared, and of which kinds, once all of them agree.
    pub fn finish(self) -> Outcome {
        self.bridge.finish()?;
        Ok((self.cases, self.tally.lines()))
    }

    /// What the decoder says of a part, and the run that it hands over.
    pub fn part(&mut self, part: &[u8], out: &[u8]) -> Checked {
        self.decode(part)?;
        self.run(part, out)
    }

    fn decode(&mut self, part: &[u8]) -> Checked {
        let own = layout::decode(part);
        self.tally.decode(part, own);
        let results = match own {
            Ok(decoded) => [
                0,
                decoded.position.into(),
                decoded.lost.into(),
                decoded.used.into(),
                decoded.records as u64,
            ],
            Err(number) => [number.into(), 0, 0, 0, 0],
        };
        let call = probe::DECODE.call(&[], &[part]);
        self.agree(&probe::DECODE, call, frame(&results, &[part]))
    }

    /// The first implementation's run is copied to `out`, if it has room for it.
    fn run(&mut self, part: &[u8], out: &[u8]) -> Checked {
        let own = layout::run(part);
        self.tally.run(own, out);
        let mut after = out.to_vec();
        if let Some(front) = after.get_mut(..own.len()) {
            front.copy_from_slice(own);
        }
        let call = probe::RUN.call(&[], &[part, out]);
        self.agree(
            &probe::RUN,
            call,
            frame(&[own.len() as u64], &[part, &after]),
        )
    }

    /// What is laid out where, and that it comes back.
    pub fn lay_out(&mut self, run: &[u8], position: u32, lost: u32, part: &[u8]) -> Checked {
        let mut after = part.to_vec();
        let own = layout::lay_out(run, position, lost, &mut after);
        self.tally.lay_out(run, part, own);
        let number = own.err().unwrap_or(0);
        let call = probe::LAY_OUT.call(&[position, lost], &[run, part]);
        let answer = frame(&[number.into()], &[run, &after]);
        self.agree(&probe::LAY_OUT, call, answer)?;
        if own.is_err() {
            return Ok(());
        }
        self.round_trip(run, position, lost, &after)
    }

    /// What was laid out decodes, and its run is the run laid out. Both laid out
    /// the same bytes, so both are asked about these; a copy of them serves as
    /// memory with room for the run.
    fn round_trip(&mut self, run: &[u8], position: u32, lost: u32, part: &[u8]) -> Checked {
        let records = layout::read_run(run).map(|records| records.len());
        let laid = records.map(|records| Decoded {
            position,
            lost,
            used: 16 + run.len() as u32,
            records,
        });
        if layout::decode(part) != laid || layout::run(part) != run {
            let (run, part) = (hex(run), hex(part));
            let laid = format!("run [{run}], position {position}, lost {lost}, part [{part}]");
            return Err(format!("what was laid out doesn't come back: {laid}"));
        }
        self.tally.lay_and_back += 1;
        self.part(part, part)
    }

    /// All header bytes but the used size.
    pub fn write_header(&mut self, position: u32, lost: u32, part: &[u8]) -> Checked {
        self.tally.write_header(part);
        let mut after = part.to_vec();
        layout::write_header(&mut after, position, lost);
        let call = probe::WRITE_HEADER.call(&[position, lost], &[part]);
        self.agree(&probe::WRITE_HEADER, call, frame(&[], &[&after]))
    }

    /// The used size.
    pub fn write_used(&mut self, used: u32, part: &[u8]) -> Checked {
        self.tally.write_used(used, part);
        let mut after = part.to_vec();
        layout::write_used(&mut after, used);
        let call = probe::WRITE_USED.call(&[used], &[part]);
        self.agree(&probe::WRITE_USED, call, frame(&[], &[&after]))
    }

    /// A record at the front of a desk.
    pub fn lay_record(&mut self, desk: &[u8], payload: &[u8], kind: u8, producer: u8) -> Checked {
        self.tally.lay_record(payload, desk);
        let mut after = desk.to_vec();
        layout::lay_record(&mut after, payload, kind, producer);
        let call = probe::LAY_RECORD.call(&[kind.into(), producer.into()], &[desk, payload]);
        self.agree(&probe::LAY_RECORD, call, frame(&[], &[&after, payload]))
    }

    /// A copy from one slice to another.
    pub fn copy(&mut self, src: &[u8], dst: &[u8]) -> Checked {
        self.tally.copy(src, dst);
        let mut after = dst.to_vec();
        layout::copy(src, &mut after);
        let call = probe::COPY.call(&[], &[src, dst]);
        self.agree(&probe::COPY, call, frame(&[], &[src, &after]))
    }

    /// Every number and every byte of lent memory must be the same.
    fn agree(&mut self, function: &'static Function, call: Frame, own: Frame) -> Checked {
        self.cases += 1;
        let asked = call.clone();
        self.bridge.ask(&asked, move |first| {
            if first == own {
                return Ok(());
            }
            Err(function.mismatch(&call, &first, &own))
        })
    }
}
