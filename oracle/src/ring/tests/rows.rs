//! The step table, row by row.

use super::*;
use crate::edges::HALF;

/// The phase of each commit's add, and that after the commit for an event.
const COMMITS: [(u32, u32); 3] = [
    (phase::CLOSE_ADD, phase::OPEN),
    (phase::OPEN_ADD, phase::WRITE),
    (phase::SLOT_ADD, phase::IDLE),
];

/// An event that closes sub-buffer 0 at 22 and enters sub-buffer 1.
fn closing(phase: u32) -> Producer {
    event(phase, 22, 43)
}

/// An event, or a flush, with this judgement.
fn judged(phase: u32, w: u32, z: u32, full: bool) -> Producer {
    Producer {
        full,
        ..event(phase, w, z)
    }
}

/// An event of which so many bytes are written.
fn writing(phase: u32, w: u32, z: u32, done: u32) -> Producer {
    Producer {
        done,
        ..event(phase, w, z)
    }
}

/// The sub-buffer that this event's commit goes to.
fn part_of(add: u32) -> usize {
    usize::from(add != phase::CLOSE_ADD)
}

#[test]
fn offer_copies_the_record_to_the_desk() {
    let mut ring = at(22, event(phase::IDLE, 9, 9));
    ring.producer[0].full = true;
    ring.offered = u32::MAX;
    let mut lent = desks();
    let next = ring.offer(0, 7, &[5, 6], &mut lent);
    let mut after = then(ring, event(phase::READ, 0, 6));
    after.offered = 0;
    assert_eq!(next, Ok(after));
    assert_eq!(lent[..6], [2, 0, 7, 0, 5, 6]);
    assert_eq!(lent[6..], desks()[6..]);
}

#[test]
fn each_producer_has_its_desk() {
    let mut lent = desks();
    let next = fresh().offer(1, 7, &[5; 44], &mut lent).unwrap();
    assert_eq!(next.producer[1], event(phase::READ, 0, 48));
    assert_eq!(next.producer[0], Producer::default());
    assert_eq!(lent[..64], desks()[..64]);
    assert_eq!(lent[64..68], [44, 0, 7, 1]);
    assert_eq!(lent[68..112], [5; 44]);
    assert_eq!(lent[112..], desks()[112..]);
}

#[test]
fn flush_begins_with_z_0() {
    let ring = at(22, event(phase::IDLE, 9, 9));
    let after = then(ring, flush(phase::READ, 0));
    assert_eq!(ring.flush(0), Ok(after));
}

#[test]
fn read_holds_the_write_count() {
    let ring = at(22, event(phase::READ, 9, 6));
    assert_eq!(step(ring), then(ring, event(phase::JUDGE, 22, 6)));
    let ring = at(22, flush(phase::READ, 9));
    assert_eq!(step(ring), then(ring, flush(phase::SWAP, 22)));
    let ring = at(64, flush(phase::READ, 9));
    assert_eq!(step(ring), then(ring, flush(phase::IDLE, 64)));
}

#[test]
fn judge_notes_room_or_full() {
    for (w, z, read, full) in [
        (128, 6, 0, true),
        (128, 6, 64, false),
        (100, 48, 0, true),
        (100, 28, 0, false),
        (128, 6, 129, true),
        (0, 6, u32::MAX - 127, true),
        (0, 6, u32::MAX - 63, false),
    ] {
        let mut ring = at(w, judged(phase::JUDGE, w, z, !full));
        ring.read = read;
        let after = then(ring, judged(phase::SWAP, w, z, full));
        assert_eq!(step(ring), after, "{w} {z} {read}");
    }
}

#[test]
fn swap_goes_back_if_the_write_count_moved() {
    for z in [0, 6] {
        for full in [false, true] {
            let ring = at(28, judged(phase::SWAP, 22, z, full));
            assert_eq!(step(ring), then(ring, judged(phase::READ, 22, z, full)));
        }
    }
}

#[test]
fn swap_moves_the_write_count() {
    for (w, z, e, phase) in [
        (0, 6, 22, phase::OPEN),
        (22, 42, 64, phase::WRITE),
        (22, 43, 123, phase::CLOSE),
        (4_294_967_274, 23, 39, phase::CLOSE),
        (22, 0, 64, phase::CLOSE),
        (4_294_967_274, 0, 0, phase::CLOSE),
    ] {
        let ring = at(w, event(phase::SWAP, w, z));
        let mut after = then(ring, event(phase, w, z));
        after.write = e;
        assert_eq!(step(ring), after, "{w} {z}");
    }
}

#[test]
fn swap_confirms_a_loss() {
    for w in [22, 128] {
        let mut ring = at(w, judged(phase::SWAP, w, 6, true));
        ring.lost = u32::MAX;
        let mut after = then(ring, judged(phase::IDLE, w, 6, true));
        after.lost = 0;
        assert_eq!(step(ring), after, "{w}");
    }
}

#[test]
fn the_swap_of_a_flush_does_not_look_at_the_judgement() {
    let ring = at(22, judged(phase::SWAP, 22, 0, true));
    let mut after = then(ring, judged(phase::CLOSE, 22, 0, true));
    after.write = 64;
    assert_eq!(step(ring), after);
}

#[test]
fn close_writes_the_used_size() {
    for z in [43, 0] {
        let ring = at(123, event(phase::CLOSE, 86, z));
        let (next, memory) = step_in(ring);
        assert_eq!(next, then(ring, event(phase::CLOSE_ADD, 86, z)));
        assert_eq!(memory, memory_with(64 + 6, &[22, 0]));
    }
}

#[test]
fn open_writes_all_of_the_header_but_the_used_size() {
    let mut ring = at(123, closing(phase::OPEN));
    ring.lost = 0x0403_0201;
    let (next, memory) = step_in(ring);
    assert_eq!(next, then(ring, closing(phase::OPEN_ADD)));
    let header = *b"VTR\x01\0\0\xee\xee\x40\0\0\0\x01\x02\x03\x04";
    assert_eq!(memory, memory_with(64, &header));
}

#[test]
fn write_copies_8_bytes_or_fewer() {
    let mut ring = at(123, closing(phase::WRITE));
    let next = [phase::WRITE; 5].into_iter().chain([phase::SLOT_ADD]);
    for (phase, done) in next.zip([8, 16, 24, 32, 40, 43]) {
        let before = ring.producer[0].done as usize;
        let (next, memory) = step_in(ring);
        assert_eq!(next, then(ring, writing(phase, 22, 43, done)));
        let copied = &desks()[before..done as usize];
        assert_eq!(memory, memory_with(80 + before, copied));
        ring = next;
    }
}

#[test]
fn write_leads_to_the_end_if_it_is_due() {
    for w in [22, 86] {
        let ring = at(w, writing(phase::WRITE, w, 42, 40));
        let (next, memory) = step_in(ring);
        assert_eq!(next, then(ring, writing(phase::END, w, 42, 42)));
        assert_eq!(memory, memory_with(w as usize + 40, &desks()[40..42]));
    }
}

#[test]
fn write_goes_on_if_all_is_written() {
    for (z, phase) in [(42, phase::END), (41, phase::SLOT_ADD)] {
        let ring = at(22, writing(phase::WRITE, 22, z, z));
        assert_eq!(step(ring), then(ring, writing(phase, 22, z, z)));
    }
}

#[test]
fn a_slot_lies_where_its_position_stands() {
    let before = event(phase::WRITE, u32::MAX - 63, 4);
    let (_, memory) = step_in(at(0, before));
    assert_eq!(memory, memory_with(80, &desks()[..4]));
}

#[test]
fn end_writes_the_used_size() {
    for (w, z, start) in [(22, 42, 0), (64, 48, 64), (20, 48, 64)] {
        let ring = at(w, event(phase::END, w, z));
        let (next, memory) = step_in(ring);
        assert_eq!(next, then(ring, event(phase::SLOT_ADD, w, z)));
        assert_eq!(memory, memory_with(start + 6, &[64, 0]), "{w}");
    }
}

#[test]
fn add_counts_the_bytes() {
    for ((add, _), m) in COMMITS.into_iter().zip([42, 16, 43]) {
        let mut ring = at(123, closing(add));
        ring.commit = [u32::MAX; MOST_PARTS];
        ring.written = u32::MAX;
        let mut after = then(ring, closing(add + 1));
        after.commit[part_of(add)] = m - 1;
        if add == phase::SLOT_ADD {
            after.written = 0;
        }
        assert_eq!(step(ring), after, "{add}");
    }
}

#[test]
fn look_ends_a_commit_within_a_round() {
    for (add, next) in COMMITS {
        let mut ring = at(123, closing(add + 1));
        ring.commit[part_of(add)] = 65;
        assert_eq!(step(ring), then(ring, closing(next)), "{add}");
    }
}

#[test]
fn look_holds_the_commit_count_of_a_whole_round() {
    for (add, _) in COMMITS {
        let mut ring = at(123, closing(add + 1));
        ring.commit = [65; MOST_PARTS];
        ring.commit[part_of(add)] = 128;
        assert_eq!(step(ring), then(ring, seeing(add + 2, 128, 0)), "{add}");
    }
}

/// The closing event with these commit values.
fn seeing(phase: u32, v: u32, s: u32) -> Producer {
    Producer {
        v,
        s,
        ..closing(phase)
    }
}

/// A ring in which the seq is this one where the commit goes.
fn with_seq(producer: Producer, add: u32, seq: u32) -> Ring {
    let mut ring = at(123, producer);
    ring.seq = [7; MOST_PARTS];
    ring.seq[part_of(add)] = seq;
    ring
}

#[test]
fn see_tells_whether_v_raises_the_seq() {
    for (add, next) in COMMITS {
        for (v, seq, raises) in [
            (64, 0, true),
            (0, u32::MAX - 63, true),
            (HALF - 1, 0, true),
            (64, 64, false),
            (64, 128, false),
            (HALF, 0, false),
        ] {
            let ring = with_seq(seeing(add + 2, v, 5), add, seq);
            let phase = if raises { add + 3 } else { next };
            let after = then(ring, seeing(phase, v, seq));
            assert_eq!(step(ring), after, "{add} {v} {seq}");
        }
    }
}

#[test]
fn set_stores_if_nobody_else_has() {
    for (add, next) in COMMITS {
        for (v, s) in [(64, 0), (0, u32::MAX - 63), (64, 64), (64, 128)] {
            let ring = with_seq(seeing(add + 3, v, s), add, s);
            let mut after = then(ring, seeing(next, v, s));
            after.seq[part_of(add)] = v;
            assert_eq!(step(ring), after, "{add} {v} {s}");
        }
    }
}

#[test]
fn set_sees_again_if_somebody_else_has() {
    for (add, next) in COMMITS {
        for (v, seq, again) in [(128, 64, true), (64, 64, false), (64, 128, false)] {
            let ring = with_seq(seeing(add + 3, v, 0), add, seq);
            let phase = if again { add + 3 } else { next };
            let after = then(ring, seeing(phase, v, seq));
            assert_eq!(step(ring), after, "{add} {v} {seq}");
        }
    }
}

#[test]
fn a_flush_is_idle_after_its_commit() {
    let ring = at(64, flush(phase::CLOSE_ADD, 22));
    let mut after = then(ring, flush(phase::CLOSE_LOOK, 22));
    after.commit[0] = 42;
    assert_eq!(step(ring), after);
    assert_eq!(step(after), then(after, flush(phase::IDLE, 22)));
    for (phase, seq) in [(phase::CLOSE_SEE, 0), (phase::CLOSE_SET, 64)] {
        let mut ring = at(64, flush(phase, 22));
        ring.seq[0] = seq;
        let after = Producer {
            s: seq,
            ..flush(phase::IDLE, 22)
        };
        assert_eq!(step(ring), then(ring, after), "{phase}");
    }
}
