//! The replay program of document 01: lines that each make one call to a ring, and
//! what each of them prints.
//!
//! Where the text leaves something open:
//!
//! - A first `new` that is refused prints `bad line`.
//! - A number is one digit or more, and zeros may lead it. One above its limit
//!   makes its line a bad one.
//! - A line ends before a line feed, or with the input; any other byte, a space at
//!   either end and a carriage return too, belongs to the line.
//! - Ring memory and desks begin as zeros.

use std::fmt::{self, Display};
use std::str::FromStr;

use crate::ring::Ring;

/// What a line of the input asks for.
#[derive(Clone, Copy, Debug, PartialEq, Eq)]
pub enum Line {
    New {
        size: u32,
        parts: u32,
        producers: u32,
        start: u32,
    },
    /// The payload is `length` bytes equal to `kind`.
    Offer {
        p: u32,
        kind: u8,
        length: u16,
    },
    Flush {
        p: u32,
    },
    Step {
        p: u32,
    },
    Run {
        p: u32,
    },
    Get,
    Put,
}

impl Line {
    /// The line of these bytes; none if it is a bad line.
    pub fn parse(bytes: &[u8]) -> Option<Line> {
        let text = str::from_utf8(bytes).ok()?;
        let fields: Vec<&str> = text.split(' ').collect();
        let line = match fields[..] {
            ["new", size, parts, producers, start] => Line::New {
                size: number(size)?,
                parts: number(parts)?,
                producers: number(producers)?,
                start: number(start)?,
            },
            ["offer", p, kind, length] => Line::Offer {
                p: number(p)?,
                kind: number(kind)?,
                length: number(length)?,
            },
            ["flush", p] => Line::Flush { p: number(p)? },
            ["step", p] => Line::Step { p: number(p)? },
            ["run", p] => Line::Run { p: number(p)? },
            ["get"] => Line::Get,
            ["put"] => Line::Put,
            _ => return None,
        };
        Some(line)
    }
}

impl Display for Line {
    fn fmt(&self, f: &mut fmt::Formatter) -> fmt::Result {
        match self {
            Line::New {
                size,
                parts,
                producers,
                start,
            } => write!(f, "new {size} {parts} {producers} {start}"),
            Line::Offer { p, kind, length } => write!(f, "offer {p} {kind} {length}"),
            Line::Flush { p } => write!(f, "flush {p}"),
            Line::Step { p } => write!(f, "step {p}"),
            Line::Run { p } => write!(f, "run {p}"),
            Line::Get => f.write_str("get"),
            Line::Put => f.write_str("put"),
        }
    }
}

/// A decimal number, which the type's own reading would allow a sign.
fn number<T: FromStr>(field: &str) -> Option<T> {
    let digits = field.bytes().all(|byte| byte.is_ascii_digit());
    field.parse().ok().filter(|_| digits)
}

/// A ring and the memory lent to it.
pub struct Replay {
    pub ring: Ring,
    pub memory: Vec<u8>,
    pub desks: Vec<u8>,
}

impl Replay {
    /// Begins with a first line, which must be a `new` that is accepted.
    pub fn begin(first: Line) -> Option<Self> {
        let Line::New {
            size,
            parts,
            producers,
            start,
        } = first
        else {
            return None;
        };
        let ring = Ring::fresh(size, parts, producers, start).ok()?;
        Some(Replay::with_zeros(ring))
    }

    fn with_zeros(ring: Ring) -> Self {
        Replay {
            memory: vec![0; ring.bytes() as usize],
            desks: vec![0; ring.desk_bytes() as usize],
            ring,
        }
    }

    /// Makes the call of a line, and gives its answer.
    pub fn call(&mut self, line: Line) -> u32 {
        let Replay {
            ring,
            memory,
            desks,
        } = self;
        let next = match line {
            Line::New {
                size,
                parts,
                producers,
                start,
            } => Ring::fresh(size, parts, producers, start),
            Line::Offer { p, kind, length } => {
                ring.offer(p, kind, &vec![kind; usize::from(length)], desks)
            }
            Line::Flush { p } => ring.flush(p),
            Line::Step { p } => ring.step(p, memory, desks),
            Line::Run { p } => ring.run(p, memory, desks),
            Line::Get => ring.get(),
            Line::Put => ring.put(),
        };
        match (next, line) {
            (Err(number), _) => return number,
            (Ok(ring), Line::New { .. }) => *self = Replay::with_zeros(ring),
            (Ok(ring), _) => self.ring = ring,
        }
        0
    }

    /// What a line with this answer prints.
    fn words(&self, answer: u32) -> String {
        let Ring {
            write,
            read,
            offered,
            written,
            lost,
            ..
        } = self.ring;
        format!("{answer} {write} {read} {offered} {written} {lost}\n")
    }
}

/// What the program prints for this input.
pub fn replay(input: &[u8]) -> String {
    let mut output = String::new();
    let mut replay: Option<Replay> = None;
    for bytes in lines(input) {
        let Some(words) = answer(&mut replay, bytes) else {
            output.push_str("bad line\n");
            break;
        };
        output.push_str(&words);
    }
    output
}

/// The lines of the input, without their line ends.
fn lines(input: &[u8]) -> impl Iterator<Item = &[u8]> {
    let ended = input.split_inclusive(|&byte| byte == b'\n');
    ended.map(|line| line.strip_suffix(b"\n").unwrap_or(line))
}

/// What a line prints, the first one or a later one; none if it is a bad line.
fn answer(replay: &mut Option<Replay>, bytes: &[u8]) -> Option<String> {
    let line = Line::parse(bytes)?;
    match replay {
        Some(replay) => {
            let answer = replay.call(line);
            Some(replay.words(answer))
        }
        None => {
            let begun = replay.insert(Replay::begin(line)?);
            Some(begun.words(0))
        }
    }
}

#[cfg(test)]
mod tests;
