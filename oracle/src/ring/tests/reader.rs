//! The reader's calls.

use super::*;

/// A ring of four sub-buffers in the round of position 256, of which those at
/// these places are ready.
fn with_ready(places: &[usize]) -> Ring {
    let mut ring = Ring::fresh(64, 4, 1, 256).unwrap();
    for &place in places {
        ring.seq[place] = 128;
    }
    ring
}

#[test]
fn get_holds_what_is_ready() {
    let ring = with_ready(&[0]);
    let held = Ring {
        holding: true,
        ..ring
    };
    assert_eq!(ring.get(), Ok(held));
    assert_eq!(with_ready(&[1, 2, 3]).get(), Err(7));
    assert_eq!(Ring::fresh(64, 2, 1, 0).unwrap().get(), Err(7), "untouched");
}

#[test]
fn held_is_the_sub_buffer_at_the_read_count() {
    let held = |read, length| {
        let holding = true;
        Ring {
            read,
            holding,
            ..with_ready(&[])
        }
        .held(length)
    };
    assert_eq!(held(256, 256), 0..64);
    assert_eq!(held(320, 256), 64..128);
    assert_eq!(held(u32::MAX, 256), 192..256);
    assert_eq!(held(256, 255), 0..0);
    assert_eq!(held(256, 512), 0..0);
    assert_eq!(with_ready(&[0]).held(256), 0..0, "nothing is held");
}

#[test]
fn put_moves_the_read_count() {
    for (read, next) in [(256, 320), (u32::MAX - 63, 0), (7, 71)] {
        let ring = Ring {
            read,
            holding: true,
            ..with_ready(&[])
        };
        let after = Ring {
            read: next,
            holding: false,
            ..ring
        };
        assert_eq!(ring.put(), Ok(after));
    }
}

#[test]
fn the_ready_count_stops_at_the_first_that_is_not() {
    assert_eq!(with_ready(&[]).ready_count(), 0);
    assert_eq!(with_ready(&[1, 2, 3]).ready_count(), 0);
    assert_eq!(with_ready(&[0, 2]).ready_count(), 1);
    assert_eq!(with_ready(&[0, 1, 3]).ready_count(), 2);
    assert_eq!(with_ready(&[0, 1, 2, 3]).ready_count(), 4);
}

#[test]
fn the_ready_count_goes_on_into_the_next_round() {
    let mut ring = with_ready(&[2, 3]);
    ring.read = 256 + 128;
    assert_eq!(ring.ready_count(), 2);
    ring.seq[0] = 128;
    assert_eq!(ring.ready_count(), 2, "the round before");
    ring.seq[0] = 192;
    assert_eq!(ring.ready_count(), 3);
}

#[test]
fn the_ready_count_goes_on_through_zero() {
    let mut ring = Ring::fresh(64, 2, 1, u32::MAX - 127).unwrap();
    ring.read = u32::MAX - 63;
    ring.seq = [(1 << 31) + 64; MOST_PARTS];
    ring.seq[1] = 1 << 31;
    assert_eq!(ring.ready_count(), 2);
}

#[test]
fn a_held_sub_buffer_counts_as_ready() {
    let ring = with_ready(&[0, 1]).get().unwrap();
    assert_eq!(ring.ready_count(), 2);
    assert_eq!(ring.put().unwrap().ready_count(), 1);
}
