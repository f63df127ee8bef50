//! Runs and parts to compare with, good ones and damaged ones.

use oracle::layout::{self, Record};
use oracle::random::Random;

/// Payload lengths of runs that a sub-buffer of `size` bytes holds: the smallest,
/// full ones and almost full ones, from one record to nothing but heads.
pub fn shapes(size: u32) -> Vec<Vec<u32>> {
    let longest = size - 20;
    let heads = (size as usize - 16) / 4;
    vec![
        vec![0],
        vec![1],
        vec![2],
        vec![longest],
        vec![longest - 1],
        vec![0; heads],
        vec![0; heads - 1],
        vec![0, longest - 4],
        vec![longest - 4, 0],
        vec![longest - 5, 0],
        vec![5, 0, 3, 12],
    ]
}

/// Payload lengths of some run that a sub-buffer of `size` bytes holds. Half of
/// these runs leave no room for another record.
pub fn shape(random: &mut Random, size: u32) -> Vec<u32> {
    let room = size - 16;
    let some = 4 + random.below(room - 3);
    let mut left = random.pick(&[room, some]);
    let few = random.below(2) == 0;
    let mut lengths = Vec::new();
    while left >= 4 {
        let longest = left - 4;
        let small = random.below(9).min(longest);
        let any = random.below(longest + 1);
        let length = if few {
            random.pick(&[0, small, any, longest])
        } else {
            small
        };
        lengths.push(length);
        left = longest - length;
    }
    lengths
}

/// A run with payloads of these lengths.
pub fn run(random: &mut Random, lengths: &[u32]) -> Vec<u8> {
    let mut run = Vec::new();
    for &length in lengths {
        let record = Record {
            kind: random.any() as u8,
            producer: random.below(8) as u8,
            payload: &random.bytes(length),
        };
        run.extend(record.bytes().expect("a sub-buffer holds no longer one"));
    }
    run
}

/// A run of so many bytes, with long records; its end may be too short for one.
pub fn run_of_length(random: &mut Random, length: u32) -> Vec<u8> {
    let mut left = length;
    let mut lengths = Vec::new();
    while left >= 4 {
        let longest = (left - 4).min(60_000);
        lengths.push(longest);
        left -= 4 + longest;
    }
    [run(random, &lengths), random.bytes(left)].concat()
}

/// A part of `size` bytes with any run that it has room for, good or not. What
/// lies behind the used size is random.
pub fn part(random: &mut Random, size: u32, run: &[u8], position: u32, lost: u32) -> Vec<u8> {
    let mut part = random.bytes(size);
    let used = 16 + run.len();
    layout::write_header(&mut part, position, lost);
    layout::write_used(&mut part, used as u32);
    part[16..used].copy_from_slice(run);
    part
}

/// Where in a run the heads of its first two and last two records lie, byte by
/// byte.
pub fn heads(lengths: &[u32]) -> Vec<usize> {
    let starts: Vec<usize> = lengths
        .iter()
        .scan(0, |next, &length| {
            let start = *next;
            *next += 4 + length as usize;
            Some(start)
        })
        .collect();
    let first = starts.iter().take(2);
    let last = starts.iter().skip(2.max(starts.len().saturating_sub(2)));
    let both = first.chain(last);
    both.flat_map(|&start| start..start + 4).collect()
}

/// Values for a byte in place of `old`: a bit turned, the values next to it and
/// those at the edges.
pub fn values(old: u8) -> Vec<u8> {
    let turned = (0..8).map(|bit| old ^ 1 << bit);
    let next = [old.wrapping_sub(1), old.wrapping_add(1)];
    let mut values: Vec<u8> = turned.chain(next).chain([0, 7, 8, 255]).collect();
    values.sort_unstable();
    values.dedup();
    values
}

/// The bytes with one of them changed.
pub fn changed(bytes: &[u8], at: usize, value: u8) -> Vec<u8> {
    let mut changed = bytes.to_vec();
    changed[at] = value;
    changed
}

/// Changes up to three bytes, most of them among the first ones.
pub fn damage(random: &mut Random, bytes: &mut [u8]) {
    for _ in 0..random.below(4) {
        let some = random.below(bytes.len() as u32);
        let at = random.pick(&[some, some % 16, some % 64]) as usize;
        let value = random.any() as u8;
        bytes[at] = random.pick(&[value, value % 16, bytes[at] ^ 1]);
    }
}
