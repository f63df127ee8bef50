//! The first implementation's arithmetic as the bridge knows it: the number of
//! each function there, and the plain numbers that stand for arguments and
//! answers.

use std::fmt::Debug;

use oracle::counts::Place;

/// A function: its number in `bridge/counts.c`, and its words in a message.
#[derive(Clone, Copy)]
pub struct Function(pub u64, pub &'static str);

pub const POSITION_PLUS: Function = Function(0, "position_plus(x, n)");
pub const POSITION_SINCE: Function = Function(1, "position_since(x, y)");
pub const COMMIT_PLUS: Function = Function(2, "commit_plus(x, n)");
pub const COMMIT_SINCE: Function = Function(3, "commit_since(x, y)");
pub const SIZE_ALLOWED: Function = Function(4, "size_allowed(size)");
pub const PARTS_ALLOWED: Function = Function(5, "parts_allowed(parts)");
pub const PRODUCERS_ALLOWED: Function = Function(6, "producers_allowed(producers)");
pub const SHAPE_ALLOWED: Function = Function(7, "shape_allowed(size, parts, producers)");
pub const OFFSET: Function = Function(8, "offset(x, size)");
pub const START: Function = Function(9, "start(x, size)");
pub const LEFT: Function = Function(10, "left(x, size)");
pub const NEXT: Function = Function(11, "next(x, size)");
pub const PLACE: Function = Function(12, "place(w, z, size, header)");
pub const BYTE: Function = Function(13, "byte(x, size, parts)");
pub const PART: Function = Function(14, "part(x, size, parts)");
pub const FULL: Function = Function(15, "full(place, read, size, parts)");
pub const TO_COMMIT: Function = Function(16, "to_commit(r, size, parts)");
pub const READY: Function = Function(17, "ready(r, seq, size, parts)");
pub const ROUND: Function = Function(18, "round(x, size)");
pub const RAISES: Function = Function(19, "raises(v, s)");
pub const REMAINDER: Function = Function(20, "remainder(x, s)");
pub const QUOTIENT: Function = Function(21, "quotient(x, s)");

/// What a call hands over.
pub trait Arguments: Debug + 'static {
    fn numbers(&self) -> [u64; 7];
}

impl<T: Copy + Into<u64> + Debug + 'static, const K: usize> Arguments for [T; K] {
    fn numbers(&self) -> [u64; 7] {
        let mut numbers = [0; 7];
        for (number, value) in numbers[..K].iter_mut().zip(self) {
            *number = (*value).into();
        }
        numbers
    }
}

/// A place crosses as three numbers: padding below t, a below e, and a bit for
/// each yes or no.
impl Arguments for (Place, [u32; 3]) {
    fn numbers(&self) -> [u64; 7] {
        let (place, others) = self;
        let pair = |low, high| u64::from(low) | u64::from(high) << 32;
        let [closes, enters, ends] = [place.closes, place.enters, place.ends].map(u64::from);
        let [read, size, parts] = others.map(u64::from);
        [
            pair(place.padding, place.t),
            pair(place.a, place.e),
            closes | enters << 1 | ends << 2,
            read,
            size,
            parts,
            0,
        ]
    }
}

/// What a call answers.
pub trait Answer: Debug + PartialEq + Sized + 'static {
    /// The answer that the numbers stand for, if there is one.
    fn from_numbers(numbers: &[u64; 8]) -> Option<Self>;
}

impl Answer for u64 {
    fn from_numbers(numbers: &[u64; 8]) -> Option<Self> {
        Some(numbers[0])
    }
}

impl Answer for u32 {
    fn from_numbers(numbers: &[u64; 8]) -> Option<Self> {
        numbers[0].try_into().ok()
    }
}

impl Answer for bool {
    fn from_numbers(numbers: &[u64; 8]) -> Option<Self> {
        match numbers[0] {
            0 => Some(false),
            1 => Some(true),
            _ => None,
        }
    }
}

impl Answer for Place {
    fn from_numbers(numbers: &[u64; 8]) -> Option<Self> {
        let halves = |pair: u64| (pair as u32, (pair >> 32) as u32);
        let (padding, t) = halves(numbers[0]);
        let (a, e) = halves(numbers[1]);
        let flags = numbers[2];
        (flags < 8).then_some(Place {
            padding,
            closes: flags & 1 != 0,
            enters: flags & 2 != 0,
            t,
            a,
            e,
            ends: flags & 4 != 0,
        })
    }
}
