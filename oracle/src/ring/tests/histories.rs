//! Whole histories: document 01's example, and its errors to shut out.

use super::*;

/// A ring, its memory and its desks.
struct Bench {
    ring: Ring,
    memory: [u8; 128],
    desks: [u8; 128],
}

impl Bench {
    fn new() -> Self {
        Bench {
            ring: fresh(),
            memory: MEMORY,
            desks: desks(),
        }
    }

    fn offer(&mut self, p: u32, kind: u8, length: usize) {
        let offered = self
            .ring
            .offer(p, kind, &vec![kind; length], &mut self.desks);
        self.ring = offered.unwrap();
    }

    fn step(&mut self, p: u32) {
        self.ring = self.ring.step(p, &mut self.memory, &self.desks).unwrap();
    }

    fn run(&mut self, p: u32) {
        self.ring = self.ring.run(p, &mut self.memory, &self.desks).unwrap();
    }

    fn event(&mut self, p: u32, kind: u8, length: usize) {
        self.offer(p, kind, length);
        self.run(p);
    }

    /// Steps of `p` until it is in this phase.
    fn steps_to(&mut self, p: u32, phase: u32) {
        while self.ring.producer[p as usize].phase != phase {
            self.step(p);
        }
    }

    fn get(&mut self) -> &[u8] {
        self.ring = self.ring.get().unwrap();
        &self.memory[self.ring.held(128)]
    }

    fn put(&mut self) {
        self.ring = self.ring.put().unwrap();
    }

    /// Write, read, offered, written, lost.
    fn counts(&self) -> [u32; 5] {
        let ring = &self.ring;
        [ring.write, ring.read, ring.offered, ring.written, ring.lost]
    }
}

#[test]
fn the_worked_example() {
    let mut bench = Bench::new();
    bench.event(0, 1, 2);
    assert_eq!(bench.counts(), [22, 0, 1, 1, 0]);
    bench.event(1, 2, 40);
    assert_eq!(bench.counts(), [124, 0, 2, 2, 0]);
    let part = bench.get();
    assert_eq!(part[..8], [0x56, 0x54, 0x52, 0x01, 0x00, 0x00, 0x16, 0x00]);
    assert_eq!(part[8..16], [0; 8]);
    assert_eq!(part[16..22], [0x02, 0x00, 0x01, 0x00, 0x01, 0x01]);
    bench.event(0, 3, 2);
    assert_eq!(bench.counts(), [124, 0, 3, 2, 1]);
    bench.put();
    bench.event(0, 4, 2);
    assert_eq!(bench.counts(), [150, 64, 4, 3, 1]);
}

#[test]
fn a_run_of_an_idle_producer_is_refused() {
    let mut memory = MEMORY;
    assert_eq!(fresh().run(0, &mut memory, &desks()), Err(6));
}

#[test]
fn an_untouched_sub_buffer_is_not_ready() {
    let mut bench = Bench::new();
    assert_eq!(bench.ring.get(), Err(7));
    bench.event(0, 1, 44);
    assert_eq!(bench.ring.ready_count(), 1);
}

#[test]
fn a_stale_write_count_behind_the_read_count_is_no_loss() {
    let mut bench = Bench::new();
    bench.event(1, 1, 0);
    bench.offer(0, 2, 44);
    bench.steps_to(0, phase::JUDGE);
    for _ in 0..3 {
        bench.event(1, 1, 44);
        bench.get();
        bench.put();
    }
    bench.step(0);
    assert!(bench.ring.producer[0].full, "t - read is huge");
    bench.step(0);
    assert_eq!(bench.ring.producer[0].phase, phase::READ);
    bench.run(0);
    assert_eq!(bench.ring.lost, 0);
}

#[test]
fn an_opener_leaves_the_used_size_of_a_closer() {
    let mut bench = Bench::new();
    bench.offer(0, 1, 0);
    bench.steps_to(0, phase::OPEN);
    bench.ring = bench.ring.flush(1).unwrap();
    bench.run(1);
    assert_eq!(bench.memory[6..8], [20, 0]);
    bench.run(0);
    assert_eq!(layout::decode(bench.get()).map(|part| part.used), Ok(20));
}

#[test]
fn the_used_size_is_written_before_z_is_committed() {
    let mut bench = Bench::new();
    bench.offer(0, 1, 44);
    bench.steps_to(0, phase::SLOT_ADD);
    assert_eq!(bench.memory[6..8], [64, 0]);
    assert_eq!((bench.ring.commit[0], bench.ring.written), (16, 0));
}

#[test]
fn after_a_loss_a_smaller_event_may_fit() {
    let mut bench = Bench::new();
    bench.event(0, 1, 44);
    bench.event(0, 1, 30);
    bench.event(0, 1, 40);
    assert_eq!(bench.ring.lost, 1);
    bench.event(0, 1, 2);
    assert_eq!((bench.ring.written, bench.ring.lost), (3, 1));
}

#[test]
fn another_than_the_last_adder_may_set_the_seq() {
    let mut bench = Bench::new();
    bench.offer(0, 1, 20);
    bench.steps_to(0, phase::SLOT_LOOK);
    bench.offer(1, 2, 20);
    bench.steps_to(1, phase::SLOT_LOOK);
    assert_eq!(bench.ring.commit[0], 64);
    bench.steps_to(1, phase::SLOT_SET);
    bench.run(0);
    assert_eq!(bench.ring.ready_count(), 1);
    bench.step(1);
    assert_eq!(bench.ring.producer[1].phase, phase::IDLE);
    assert_eq!(bench.ring.seq[0], 64);
}
