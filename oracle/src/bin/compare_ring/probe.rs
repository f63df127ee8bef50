//! The first implementation's ring as the bridge knows it: the number of each
//! function there, and what the numbers and strings of its frames are.

use oracle::bridge::Frame;

use crate::state;

/// The most bytes that a message shows of lent memory, and differences in it.
const SHOWN: usize = 1_024;
const DIFFERENCES: usize = 16;

pub struct Function {
    /// 512 for the ring's place in the bridge's table, plus the function's number
    /// in `bridge/ring.c`.
    number: u64,
    pub name: &'static str,
    /// Names of the plain arguments, of the results, and of the lent memory behind
    /// the state.
    takes: &'static [&'static str],
    gives: &'static [&'static str],
    lends: [&'static str; 2],
}

pub const FRESH: Function = Function {
    number: 512,
    name: "fresh",
    takes: &["size", "parts", "producers", "start"],
    gives: &["code"],
    lends: ["", ""],
};

pub const OFFER: Function = Function {
    number: 513,
    name: "offer",
    takes: &["p", "kind"],
    gives: &["code"],
    lends: ["payload", "desks"],
};

pub const FLUSH: Function = Function {
    number: 514,
    name: "flush",
    takes: &["p"],
    gives: &["code"],
    lends: ["", ""],
};

pub const STEP: Function = Function {
    number: 515,
    name: "step",
    takes: &["p"],
    gives: &["code"],
    lends: ["memory", "desks"],
};

pub const RUN: Function = Function {
    number: 516,
    name: "run",
    takes: &["p"],
    gives: &["code"],
    lends: ["memory", "desks"],
};

pub const GET: Function = Function {
    number: 517,
    name: "get",
    takes: &[],
    gives: &["code"],
    lends: ["", ""],
};

pub const PUT: Function = Function {
    number: 518,
    name: "put",
    takes: &[],
    gives: &["code"],
    lends: ["", ""],
};

pub const READY_COUNT: Function = Function {
    number: 519,
    name: "ready count",
    takes: &[],
    gives: &["count"],
    lends: ["", ""],
};

pub const HELD: Function = Function {
    number: 520,
    name: "held",
    takes: &["length"],
    gives: &["start", "end"],
    lends: ["", ""],
};

impl Function {
    /// A call with these plain arguments, this state and this lent memory.
    pub fn call(&self, arguments: &[u64], state: Vec<u8>, lent: [&[u8]; 2]) -> Frame {
        let numbers = [&[self.number], arguments].concat();
        frame(&numbers, state, lent)
    }

    /// The words for two answers to a call that aren't the same: all that the call
    /// was given, and where the answers differ.
    pub fn mismatch(&self, call: &Frame, first: &Frame, own: &Frame) -> String {
        let name = self.name;
        let given = self.given(call);
        let mut words = vec![format!("{name} of\n {given}\nthe answers differ:")];
        let numbers = self.gives.iter().zip(first.numbers).zip(own.numbers);
        words.extend(numbers.filter_map(|((name, first), own)| differ(name, first, own)));
        words.extend(differing_fields(&first.strings[0], &own.strings[0]));
        for ((name, first), own) in self
            .lends
            .iter()
            .zip(&first.strings[1..])
            .zip(&own.strings[1..])
        {
            words.extend(differing_bytes(name, first, own));
        }
        words.join("\n ")
    }

    fn given(&self, call: &Frame) -> String {
        let numbers = self.takes.iter().zip(&call.numbers[1..]);
        let numbers = numbers.map(|(name, number)| format!("{name} {number}"));
        let fields = state::fields(&call.strings[0]).into_iter();
        let fields = fields.map(|(name, value)| format!("{name} {value}"));
        let lent = self.lends.iter().zip(&call.strings[1..]);
        let lent = lent
            .filter(|(name, _)| !name.is_empty())
            .map(|(name, bytes)| format!("{name} of {} bytes [{}]", bytes.len(), hex(bytes)));
        let all: Vec<String> = numbers.chain(fields).chain(lent).collect();
        all.join(", ")
    }
}

/// A frame whose other numbers are 0.
pub fn frame(numbers: &[u64], state: Vec<u8>, lent: [&[u8]; 2]) -> Frame {
    let [second, third] = lent.map(<[u8]>::to_vec);
    let mut frame = Frame {
        strings: [state, second, third],
        ..Frame::default()
    };
    frame.numbers[..numbers.len()].copy_from_slice(numbers);
    frame
}

fn differ<T: PartialEq + std::fmt::Display>(name: &str, first: T, own: T) -> Option<String> {
    (first != own).then(|| format!("{name}: the first implementation {first}, the oracle {own}"))
}

fn differing_fields(first: &[u8], own: &[u8]) -> Vec<String> {
    let fields = state::fields(first).into_iter().zip(state::fields(own));
    let mut words: Vec<String> = fields
        .filter_map(|((name, first), (_, own))| differ(&name, first, own))
        .collect();
    words.extend(differ("bytes of the state", first.len(), own.len()));
    words
}

fn differing_bytes(name: &str, first: &[u8], own: &[u8]) -> Vec<String> {
    let bytes = first.iter().zip(own).enumerate();
    let mut words: Vec<String> = bytes
        .filter_map(|(at, (first, own))| differ(&format!("{name}[{at}]"), first, own))
        .take(DIFFERENCES)
        .collect();
    words.extend(differ(&format!("bytes of {name}"), first.len(), own.len()));
    words
}

fn hex(bytes: &[u8]) -> String {
    if bytes.len() > SHOWN {
        return "too many to show".to_string();
    }
    bytes.iter().map(|byte| format!("{byte:02x}")).collect()
}
