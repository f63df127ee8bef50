//! The first implementation is called through C, which takes unsafe code, and here
//! is none. So it runs in a process of its own, the bridge, which `bridge/build`
//! builds; calls go there and answers come back through pipes.
//!
//! A single call through a pipe is slow. So calls wait until many can be sent at
//! once, and each brings along the check that its answer must pass.

use std::env;
use std::ffi::OsString;
use std::io::{self, BufReader, ErrorKind, Read, Write};
use std::process::{Child, ChildStdin, ChildStdout, Command, Stdio};
use std::thread;

/// The most bytes that a string of a frame has.
pub const LONGEST: usize = 131_072;

/// A frame's eight numbers and the lengths of its three strings, 8 bytes each.
const HEADER: usize = 88;

/// The bytes of waiting calls at which they are sent.
const BATCH: usize = 1 << 20;

/// The bytes of answers that are read at once, if so many are there.
const BLOCK: usize = 1 << 18;

/// Nothing, or the words that tell of a mismatch or of a bridge that failed.
pub type Checked = Result<(), String>;

type Check = Box<dyn FnOnce(Frame) -> Checked>;

/// A call or an answer.
#[derive(Clone, Debug, Default, PartialEq, Eq)]
pub struct Frame {
    /// A call has the function's number here, then its plain arguments; an
    /// answer has the results.
    pub numbers: [u64; 8],
    /// Lent memory: what a call hands over, and what has become of it.
    pub strings: [Vec<u8>; 3],
}

impl Frame {
    fn append_to(&self, calls: &mut Vec<u8>) {
        let lengths = self.strings.each_ref().map(|string| string.len() as u64);
        for number in self.numbers.iter().chain(&lengths) {
            calls.extend_from_slice(&number.to_le_bytes());
        }
        for string in &self.strings {
            assert!(string.len() <= LONGEST, "the bridge takes no such string");
            calls.extend_from_slice(string);
        }
    }

    fn read(answers: &mut impl Read) -> io::Result<Self> {
        let mut header = [0; HEADER];
        answers.read_exact(&mut header)?;
        let (words, _) = header.as_chunks();
        let (numbers, lengths) = words.split_at(8);
        let mut frame = Frame::default();
        for (number, word) in frame.numbers.iter_mut().zip(numbers) {
            *number = u64::from_le_bytes(*word);
        }
        for (string, word) in frame.strings.iter_mut().zip(lengths) {
            *string = read_string(answers, u64::from_le_bytes(*word))?;
        }
        Ok(frame)
    }
}

fn read_string(answers: &mut impl Read, length: u64) -> io::Result<Vec<u8>> {
    if length > LONGEST as u64 {
        return Err(io::Error::other(format!("a string of {length} bytes")));
    }
    let mut string = vec![0; length as usize];
    answers.read_exact(&mut string)?;
    Ok(string)
}

/// The bridge, and the calls that wait to be sent to it.
pub struct Bridge {
    process: Child,
    input: ChildStdin,
    output: BufReader<ChildStdout>,
    calls: Vec<u8>,
    checks: Vec<Check>,
}

impl Bridge {
    /// Starts the bridge, or for a trial the program that the environment
    /// variable `BRIDGE` names.
    pub fn start() -> Result<Self, String> {
        let built = concat!(env!("CARGO_MANIFEST_DIR"), "/../target/bridge/run");
        let program = env::var_os("BRIDGE").unwrap_or_else(|| OsString::from(built));
        Bridge::spawn(&mut Command::new(&program)).map_err(|error| {
            format!("the bridge {program:?}, which bridge/build builds, doesn't start: {error}")
        })
    }

    fn spawn(command: &mut Command) -> io::Result<Self> {
        let piped = command.stdin(Stdio::piped()).stdout(Stdio::piped());
        let mut process = piped.spawn()?;
        let input = process.stdin.take().expect("it is piped");
        let output = process.stdout.take().expect("it is piped");
        Ok(Bridge {
            process,
            input,
            output: BufReader::with_capacity(BLOCK, output),
            calls: Vec::new(),
            checks: Vec::new(),
        })
    }

    /// Lets a call wait, with the check that its answer must pass. Once enough
    /// calls wait they are sent, and the first failure of theirs is told of here.
    pub fn ask(&mut self, call: &Frame, check: impl FnOnce(Frame) -> Checked + 'static) -> Checked {
        call.append_to(&mut self.calls);
        self.checks.push(Box::new(check));
        if self.calls.len() < BATCH {
            return Ok(());
        }
        self.send()
    }

    /// Sends the calls that still wait, and sees the bridge end in good order.
    pub fn finish(mut self) -> Checked {
        self.send()?;
        drop(self.input);
        let failed = |error| format!("the bridge doesn't end: {error}");
        if self.output.read(&mut [0]).map_err(failed)? > 0 {
            return Err("the bridge answers more than it was asked".to_string());
        }
        let status = self.process.wait().map_err(failed)?;
        if !status.success() {
            return Err(format!("the bridge ended with {status}"));
        }
        Ok(())
    }

    /// Sends the waiting calls and checks their answers, in the same order.
    ///
    /// A thread of its own writes the calls: a bridge whose answers nobody reads
    /// reads no more calls either, and one who did both in turn would hang.
    fn send(&mut self) -> Checked {
        let outcome = thread::scope(|scope| {
            let writer = scope.spawn(|| self.input.write_all(&self.calls));
            let checked = check_answers(&mut self.process, &mut self.output, &mut self.checks);
            if checked.is_err() {
                // Nobody reads the answers left, so the writer would hang. If the
                // bridge has ended already there is nothing to end.
                let _ = self.process.kill();
            }
            let written = writer.join().expect("writing doesn't panic");
            checked?;
            written.map_err(|error| format!("the bridge takes no calls: {error}"))
        });
        self.calls.clear();
        outcome
    }
}

fn check_answers(process: &mut Child, answers: &mut impl Read, checks: &mut Vec<Check>) -> Checked {
    let asked = checks.len();
    for (answered, check) in checks.drain(..).enumerate() {
        let answer = Frame::read(answers).map_err(|error| {
            let why = broken(process, &error);
            format!("the bridge answers {answered} of {asked} calls: {why}")
        })?;
        check(answer)?;
    }
    Ok(())
}

/// Why no answer came.
fn broken(process: &mut Child, error: &io::Error) -> String {
    if error.kind() != ErrorKind::UnexpectedEof {
        return error.to_string();
    }
    match process.wait() {
        Ok(status) => format!("it ended with {status}"),
        Err(error) => error.to_string(),
    }
}

#[cfg(test)]
mod tests;
