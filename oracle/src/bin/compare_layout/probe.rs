//! The first implementation's layout as the bridge knows it: the number of each
//! function there, and what the numbers and strings of its frames are.

use oracle::bridge::Frame;

pub struct Function {
    /// 256 times the crate's place in the bridge's table, plus the function's
    /// number in `bridge/layout.c`.
    number: u64,
    name: &'static str,
    /// Names of the plain arguments, of the results and of the lent memory.
    takes: &'static [&'static str],
    gives: &'static [&'static str],
    lends: &'static [&'static str],
}

pub const DECODE: Function = Function {
    number: 256,
    name: "decode",
    takes: &[],
    gives: &["number", "position", "lost", "used", "records"],
    lends: &["part"],
};

pub const RUN: Function = Function {
    number: 257,
    name: "run",
    takes: &[],
    gives: &["length"],
    lends: &["part", "out"],
};

pub const LAY_OUT: Function = Function {
    number: 258,
    name: "lay_out",
    takes: &["position", "lost"],
    gives: &["number"],
    lends: &["run", "part"],
};

pub const WRITE_HEADER: Function = Function {
    number: 259,
    name: "write_header",
    takes: &["position", "lost"],
    gives: &[],
    lends: &["part"],
};

pub const WRITE_USED: Function = Function {
    number: 260,
    name: "write_used",
    takes: &["used"],
    gives: &[],
    lends: &["part"],
};

pub const LAY_RECORD: Function = Function {
    number: 261,
    name: "lay_record",
    takes: &["kind", "producer"],
    gives: &[],
    lends: &["desk", "payload"],
};

pub const COPY: Function = Function {
    number: 262,
    name: "copy",
    takes: &[],
    gives: &[],
    lends: &["src", "dst"],
};

impl Function {
    pub fn call(&self, arguments: &[u32], lent: &[&[u8]]) -> Frame {
        let mut numbers = vec![self.number];
        numbers.extend(arguments.iter().copied().map(u64::from));
        frame(&numbers, lent)
    }

    /// The words for two answers to a call that aren't the same.
    pub fn mismatch(&self, call: &Frame, first: &Frame, own: &Frame) -> String {
        let given = self.words(self.takes, &call.numbers[1..], &call.strings);
        let first = self.words(self.gives, &first.numbers, &first.strings);
        let own = self.words(self.gives, &own.numbers, &own.strings);
        let name = self.name;
        format!(
            "{name} of\n {given}\nthe first implementation answers\n {first}\nthe oracle\n {own}"
        )
    }

    fn words(&self, names: &[&str], numbers: &[u64], strings: &[Vec<u8>]) -> String {
        let numbers = names.iter().zip(numbers);
        let numbers = numbers.map(|(name, number)| format!("{name} {number}"));
        let lent = self.lends.iter().zip(strings);
        let lent = lent.map(|(name, bytes)| format!("{name} [{}]", hex(bytes)));
        let all: Vec<String> = numbers.chain(lent).collect();
        all.join(", ")
    }
}

/// A frame whose other numbers are 0 and whose other strings are empty.
pub fn frame(numbers: &[u64], strings: &[&[u8]]) -> Frame {
    let mut frame = Frame::default();
    frame.numbers[..numbers.len()].copy_from_slice(numbers);
    for (string, bytes) in frame.strings.iter_mut().zip(strings) {
        *string = bytes.to_vec();
    }
    frame
}

pub fn hex(bytes: &[u8]) -> String {
    bytes.iter().map(|byte| format!("{byte:02x}")).collect()
}
