//! Each refusal of each call, and their order. A refused call leaves lent memory
//! as it was.

use super::*;

/// States that refusal 1 applies to.
fn misshapen() -> impl Iterator<Item = Ring> {
    let shapes = [(0, 2, 2), (63, 2, 2), (8_192, 2, 2), (64, 1, 2), (64, 3, 2)];
    let producers = [(64, 32, 2), (64, 2, 0), (64, 2, 9)];
    let all = shapes.into_iter().chain(producers);
    all.map(|(size, parts, producers)| Ring {
        size,
        parts,
        producers,
        ..fresh()
    })
}

fn offer_refusal(ring: Ring, p: u32, length: usize, desks: usize) -> u32 {
    let mut lent = vec![0xee; desks];
    let refusal = ring.offer(p, 1, &vec![1; length], &mut lent).unwrap_err();
    assert!(lent.iter().all(|&byte| byte == 0xee));
    refusal
}

/// The refusal of a step, which a run shares.
fn step_refusal(ring: Ring, p: u32, memory: usize, desks: usize) -> u32 {
    let mut lent = vec![0xee; memory];
    let desks = vec![1; desks];
    let refusal = ring.step(p, &mut lent, &desks).unwrap_err();
    assert_eq!(ring.run(p, &mut lent, &desks), Err(refusal));
    assert!(lent.iter().all(|&byte| byte == 0xee));
    refusal
}

/// Whether a step of such a producer fits.
fn fits(producer: Producer) -> bool {
    let outcome = at(0, producer).step(0, &mut MEMORY.clone(), &desks());
    match outcome {
        Ok(_) => true,
        Err(number) => {
            assert_eq!(number, 18);
            false
        }
    }
}

#[test]
fn fresh_refuses_in_order() {
    for ring in misshapen() {
        let refused = Ring::fresh(ring.size, ring.parts, ring.producers, 1);
        assert_eq!(refused, Err(1));
    }
    for start in [1, 64, 127, u32::MAX, u32::MAX - 63] {
        assert_eq!(Ring::fresh(64, 2, 2, start), Err(2), "{start}");
    }
}

#[test]
fn fresh_begins_at_the_start() {
    let ring = Ring::fresh(64, 2, 2, u32::MAX - 127).unwrap();
    assert_eq!((ring.write, ring.read), (u32::MAX - 127, u32::MAX - 127));
    assert_eq!(ring.commit, [(1 << 31) - 64; MOST_PARTS]);
    assert_eq!(ring.seq, ring.commit);
    assert_eq!(ring.producer, [Producer::default(); MOST_PRODUCERS]);
    assert_eq!((ring.offered, ring.written, ring.lost), (0, 0, 0));
    assert!(!ring.holding);
}

#[test]
fn offer_refuses_in_order() {
    let busy = at(0, event(phase::READ, 0, 6));
    for ring in misshapen() {
        assert_eq!(offer_refusal(ring, 2, 99, 128), 1);
    }
    for desks in [0, 127, 129, 256] {
        assert_eq!(offer_refusal(busy, 2, 99, desks), 1);
    }
    for p in [2, 8, u32::MAX] {
        assert_eq!(offer_refusal(busy, p, 99, 128), 3);
    }
    assert_eq!(offer_refusal(busy, 0, 99, 128), 4);
    for length in [45, 65_535] {
        assert_eq!(offer_refusal(busy, 1, length, 128), 5);
    }
    for phase in [19, 20, u32::MAX] {
        assert_eq!(offer_refusal(at(0, event(phase, 0, 6)), 0, 0, 128), 4);
    }
}

#[test]
fn flush_refuses_in_order() {
    let busy = at(0, event(phase::READ, 0, 6));
    for ring in misshapen() {
        assert_eq!(ring.flush(2), Err(1));
    }
    for p in [2, 8, u32::MAX] {
        assert_eq!(busy.flush(p), Err(3));
    }
    assert_eq!(busy.flush(0), Err(4));
    assert!(busy.flush(1).is_ok());
}

#[test]
fn step_refuses_in_order() {
    let wrong = at(0, event(99, 0, 1));
    for ring in misshapen() {
        assert_eq!(step_refusal(ring, 2, 128, 128), 1);
    }
    for (memory, desks) in [(127, 128), (129, 128), (128, 127), (128, 129), (0, 0)] {
        assert_eq!(step_refusal(wrong, 2, memory, desks), 1);
    }
    for p in [2, 8, u32::MAX] {
        assert_eq!(step_refusal(wrong, p, 128, 128), 3);
    }
    let idle = at(0, event(phase::IDLE, 0, 1));
    assert_eq!(step_refusal(idle, 0, 128, 128), 6);
    assert_eq!(step_refusal(wrong, 0, 128, 128), 18);
}

#[test]
fn z_is_0_or_that_of_a_record() {
    for z in [1, 3, 49, 64, u32::MAX] {
        assert!(!fits(event(phase::READ, 0, z)), "{z}");
    }
    for z in [0, 4, 48] {
        assert!(fits(event(phase::READ, 0, z)), "{z}");
    }
}

#[test]
fn no_more_than_z_bytes_are_written() {
    for z in [0, 4, 48] {
        let written = |done| {
            fits(Producer {
                done,
                ..event(phase::READ, 0, z)
            })
        };
        assert!(written(z) && !written(z + 1) && !written(u32::MAX), "{z}");
    }
}

#[test]
fn a_number_above_the_table_names_no_row() {
    for phase in [20, 21, 255, 256 + phase::READ, u32::MAX] {
        assert!(!fits(event(phase, 22, 43)), "{phase}");
        assert!(!fits(flush(phase, 22)), "{phase}");
    }
}

/// The phases from 1 to 19 that fit this producer.
fn fitting(producer: Producer) -> Vec<u32> {
    let all = 1..=19;
    all.filter(|&phase| fits(Producer { phase, ..producer }))
        .collect()
}

#[test]
fn a_phase_fits_its_producer() {
    let always = [1, 2, 3, 14, 16, 17, 18, 19];
    let with = |some: &[u32]| {
        let mut all = [&always, some].concat();
        all.sort_unstable();
        all
    };
    let open = [9, 10, 11, 12, 13];
    let both = [4, 5, 6, 7, 8, 9, 10, 11, 12, 13];
    assert_eq!(fitting(event(0, 0, 6)), with(&open));
    assert_eq!(fitting(event(0, 0, 48)), with(&[&open[..], &[15]].concat()));
    assert_eq!(fitting(event(0, 22, 41)), always);
    assert_eq!(fitting(event(0, 22, 42)), with(&[15]));
    assert_eq!(fitting(event(0, 22, 43)), with(&both));
    assert_eq!(
        fitting(event(0, 22, 48)),
        with(&[&both[..], &[15]].concat())
    );
    assert_eq!(fitting(flush(0, 22)), [1, 3, 4, 5, 6, 7, 8]);
    assert_eq!(fitting(flush(0, 64)), [1]);
}

#[test]
fn the_reader_refuses_in_order() {
    for ring in misshapen() {
        for holding in [false, true] {
            let ring = Ring { holding, ..ring };
            assert_eq!((ring.get(), ring.put()), (Err(1), Err(1)));
            assert_eq!((ring.ready_count(), ring.held(128)), (0, 0..0));
        }
    }
    let holding = Ring {
        holding: true,
        ..fresh()
    };
    assert_eq!(holding.get(), Err(8));
    assert_eq!(fresh().get(), Err(7));
    assert_eq!(fresh().put(), Err(9));
}
