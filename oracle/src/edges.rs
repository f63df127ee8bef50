//! The edge values that a comparison must not leave to chance: both sides of
//! every bound, of zero and of the middle of the number range.

/// Every allowed S.
pub const SIZES: [u32; 7] = [64, 128, 256, 512, 1_024, 2_048, 4_096];

/// Every allowed N.
pub const PARTS: [u32; 4] = [2, 4, 8, 16];

/// The header's length in document 01, the longer one planned, and garbage.
pub const HEADERS: [u32; 9] = [16, 24, 0, 1, 63, 64, 4_096, HALF, u32::MAX];

/// The middle of the number range, from which on a difference means behind.
pub const HALF: u32 = 1 << 31;

/// Lost counts at the edges, and one that no exchange of bytes leaves as it is.
pub const LOST: [u32; 8] = [0, 1, 255, 256, 0x0102_0304, HALF - 1, HALF, u32::MAX];

/// The values and their neighbours, each once.
pub fn around(values: impl IntoIterator<Item = u32>) -> Vec<u32> {
    let mut all: Vec<u32> = values
        .into_iter()
        .flat_map(|x| [x.wrapping_sub(1), x, x.wrapping_add(1)])
        .collect();
    all.sort_unstable();
    all.dedup();
    all
}

/// Every allowed S, and sizes that aren't.
pub fn sizes() -> Vec<u32> {
    with_garbage(&SIZES, &[0, 3, 16, 24, 32, 96, 8_192, 65_536, HALF])
}

/// Every allowed N, and numbers of sub-buffers that aren't.
pub fn parts() -> Vec<u32> {
    with_garbage(&PARTS, &[0, 6, 32, 64, 65_536, HALF])
}

/// Every allowed P, and numbers of producers that aren't.
pub fn producers() -> Vec<u32> {
    around((1..=8).chain([256, HALF, u32::MAX]))
}

/// Lengths of lent memory: all the small ones, and those around every allowed S
/// and above. Of the last two, the low 16 bits are an allowed S.
pub fn lengths() -> Vec<u32> {
    let above = [96, 192, 8_192, 65_536, 65_536 + 64, 65_536 + 4_096];
    let mut all: Vec<u32> = around(SIZES.into_iter().chain(above));
    all.extend(0..=70);
    all.sort_unstable();
    all.dedup();
    all
}

/// Positions at and next to the bounds of sub-buffers, and of their halves, close
/// to zero and to the middle of the range.
pub fn positions(size: u32) -> Vec<u32> {
    counts(&[size / 2, size])
}

/// Every power of two in 64 bits and its neighbours, zero among them.
pub fn wide() -> Vec<u64> {
    let powers = (0..u64::BITS).map(|bit| 1 << bit);
    let mut all: Vec<u64> = powers
        .flat_map(|x: u64| [x.wrapping_sub(1), x, x.wrapping_add(1)])
        .chain([u64::MAX])
        .collect();
    all.sort_unstable();
    all.dedup();
    all
}

/// The allowed values come first: a fault that shows there is told of there.
fn with_garbage(allowed: &[u32], garbage: &[u32]) -> Vec<u32> {
    let mut others = around(allowed.iter().chain(garbage).copied());
    others.retain(|x| !allowed.contains(x));
    [allowed, &others].concat()
}

/// Counts at zero and in the middle of the range, and those that lie one of the
/// steps before or after them.
pub fn counts(steps: &[u32]) -> Vec<u32> {
    let near = |step: u32| {
        [0, HALF]
            .into_iter()
            .flat_map(move |base: u32| [base.wrapping_sub(step), base.wrapping_add(step)])
    };
    around([0].iter().chain(steps).copied().flat_map(near))
}

/// Record sizes at the edges of the fit test for an event `o` bytes into its
/// sub-buffer. The last of them makes o + z pass 2^32.
pub fn record_sizes(o: u32, size: u32, header: u32) -> Vec<u32> {
    let longest = size.wrapping_sub(header);
    let left = size.wrapping_sub(o);
    around([0, 4, 16, longest, left, size, HALF, 0u32.wrapping_sub(o)])
}

#[cfg(test)]
mod tests {
    use super::*;

    #[test]
    fn counts_stand_on_both_sides_of_zero_and_of_the_middle() {
        let counts = counts(&[64]);
        for edge in [0, 1, 63, 65, HALF - 1, HALF, HALF + 63, u32::MAX] {
            assert!(counts.contains(&edge), "{edge}");
        }
    }

    #[test]
    fn lengths_stand_on_both_sides_of_every_size() {
        let lengths = lengths();
        for length in (0..=70).chain([127, 128, 129, 4_095, 4_096, 4_097, 65_600]) {
            assert!(lengths.contains(&length), "{length}");
        }
    }

    #[test]
    fn positions_stand_on_and_off_the_boundary() {
        let positions = positions(64);
        for position in [0, 1, 32, 64, 65, HALF - 64, HALF, u32::MAX - 63, u32::MAX] {
            assert!(positions.contains(&position), "{position}");
        }
    }

    #[test]
    fn record_sizes_meet_the_fit_test_exactly() {
        assert!(record_sizes(22, 64, 16).contains(&42));
        assert!(record_sizes(22, 64, 16).contains(&43));
    }
}
