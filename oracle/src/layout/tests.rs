//! Document 01's worked bytes, each refusal number and its place in the order,
//! round trips, and the decisions of the module's header.

use super::*;

/// How the sub-buffer got in the replay example begins; S is 64 there.
const WORKED: [u8; 22] = [
    0x56, 0x54, 0x52, 0x01, 0x00, 0x00, 0x16, 0x00, 0, 0, 0, 0, 0, 0, 0, 0, 0x02, 0x00, 0x01, 0x00,
    0x01, 0x01,
];

/// A part of which the used bytes begin so and the others hold 0xee.
fn part(begins: &[u8]) -> [u8; 64] {
    let mut part = [0xee; 64];
    part[..begins.len()].copy_from_slice(begins);
    part
}

fn worked() -> [u8; 64] {
    part(&WORKED)
}

/// The decoder's refusal of the worked part with some bytes changed.
fn refusal(changes: &[(usize, u8)]) -> u32 {
    let mut part = worked();
    for &(at, byte) in changes {
        part[at] = byte;
    }
    assert!(run(&part).is_empty());
    decode(&part).expect_err("the change breaks a rule")
}

/// The laying-out side's refusal; it must have left the part alone.
fn laying_refusal(run: &[u8], position: u32, length: usize) -> u32 {
    let mut part = vec![0xee; length];
    let number = lay_out(run, position, 0, &mut part).expect_err("a rule is broken");
    assert!(part.iter().all(|&byte| byte == 0xee));
    number
}

#[test]
fn worked_bytes_are_decoded() {
    let answer = Decoded {
        position: 0,
        lost: 0,
        used: 22,
        records: 1,
    };
    assert_eq!(decode(&worked()), Ok(answer));
    assert_eq!(run(&worked()), [2, 0, 1, 0, 1, 1]);
}

#[test]
fn worked_bytes_are_laid_out() {
    let record = Record {
        kind: 1,
        producer: 0,
        payload: &[1, 1],
    };
    let mut part = [0xee; 64];
    let laid = lay_out(&record.bytes().unwrap(), 0, 0, &mut part);
    assert_eq!((laid, part), (Ok(()), worked()));
}

#[test]
fn worked_bytes_are_written_piece_by_piece() {
    let mut part = [0xee; 64];
    write_header(&mut part, 0, 0);
    lay_record(&mut part[16..], &[1, 1], 1, 0);
    write_used(&mut part, 22);
    assert_eq!(part, worked());
}

#[test]
fn header_numbers_stand_at_their_bytes() {
    let mut part = worked();
    part[8..16].copy_from_slice(&[0x40, 0x03, 0x02, 0x81, 0x44, 0x33, 0x22, 0x11]);
    let decoded = decode(&part).unwrap();
    assert_eq!(decoded.position, 0x8102_0340);
    assert_eq!(decoded.lost, 0x1122_3344);
}

#[test]
fn a_length_that_is_no_allowed_s_is_refused() {
    let long = [&worked()[..], &[0; 4_096]].concat();
    for length in [0, 15, 16, 22, 63, 65, 96, 127, 4_095, 4_097] {
        assert_eq!(decode(&long[..length]), Err(10), "{length}");
        assert_eq!(laying_refusal(&[0; 4], 0, length), 10, "{length}");
    }
}

#[test]
fn a_wrong_mark_is_refused() {
    for change in [(0, b'v'), (1, b'V'), (2, 0), (5, 1)] {
        assert_eq!(refusal(&[change]), 11, "{change:?}");
    }
}

#[test]
fn a_version_other_than_1_is_refused() {
    for change in [(3, 0), (3, 2), (4, 1)] {
        assert_eq!(refusal(&[change]), 12, "{change:?}");
    }
}

#[test]
fn a_used_size_outside_20_to_s_is_refused() {
    for changes in [[(6, 19), (7, 0)], [(6, 65), (7, 0)], [(6, 20), (7, 1)]] {
        assert_eq!(refusal(&changes), 13, "{changes:?}");
    }
}

#[test]
fn a_position_within_a_sub_buffer_is_refused() {
    for change in [(8, 1), (8, 32), (8, 63)] {
        assert_eq!(refusal(&[change]), 14, "{change:?}");
    }
    let double = |byte| {
        let mut part = [worked(), worked()].concat();
        part[8] = byte;
        decode(&part).err()
    };
    assert_eq!([64, 128].map(double), [Some(14), None]);
    assert_eq!(laying_refusal(&[0; 4], 65, 64), 14);
    assert_eq!(laying_refusal(&[0; 4], 64, 128), 14);
}

#[test]
fn a_record_that_passes_the_end_is_refused() {
    assert_eq!(refusal(&[(16, 3)]), 15);
    assert_eq!(refusal(&[(17, 1)]), 15);
    assert_eq!(
        refusal(&[(16, 1)]),
        15,
        "one byte of a second record's head"
    );
    assert_eq!(refusal(&[(6, 23)]), 15);
    assert_eq!(laying_refusal(&[1, 0, 0, 0], 0, 64), 15);
    assert_eq!(laying_refusal(&[0, 0, 0, 0, 0], 0, 64), 15);
    assert_eq!(laying_refusal(&[0, 0, 0], 0, 64), 15);
}

#[test]
fn a_producer_above_7_is_refused() {
    assert_eq!(refusal(&[(19, 8)]), 16);
    assert_eq!(laying_refusal(&[0, 0, 0, 255], 0, 64), 16);
    let mut part = worked();
    part[19] = 7;
    assert!(decode(&part).is_ok());
}

#[test]
fn a_run_that_is_empty_or_too_long_is_refused() {
    assert_eq!(laying_refusal(&[], 0, 64), 17);
    assert_eq!(laying_refusal(&[0; 52], 0, 64), 17);
    assert_eq!(lay_out(&[0; 48], 0, 0, &mut [0; 64]), Ok(()));
}

#[test]
fn the_decoder_refuses_in_order() {
    let wrong = [(0, 0), (3, 2), (6, 19), (8, 1)];
    let later: [(usize, u8); 2] = [(16, 99), (19, 8)];
    for (number, first) in (11..).zip(0..wrong.len()) {
        let changes = [&wrong[first..], &later].concat();
        assert_eq!(refusal(&changes), number, "{changes:?}");
    }
    assert_eq!(refusal(&later), 15);
}

#[test]
fn the_laying_out_side_refuses_in_order() {
    let bad_in_both_ways = [9, 0, 0, 8];
    assert_eq!(laying_refusal(&[], 1, 65), 10);
    assert_eq!(laying_refusal(&[], 1, 64), 14);
    assert_eq!(laying_refusal(&[bad_in_both_ways; 13].concat(), 0, 64), 17);
    assert_eq!(laying_refusal(&bad_in_both_ways, 0, 64), 15);
}

#[test]
fn the_first_bad_record_decides() {
    let passes = [9, 0, 0, 0];
    let producer = [0, 0, 0, 8];
    assert_eq!(read_run(&[producer, passes].concat()), Err(16));
    assert_eq!(read_run(&[[0; 4], producer].concat()), Err(16));
    assert_eq!(read_run(&[[0; 4], passes].concat()), Err(15));
    assert_eq!(read_run(&[]), Ok(vec![]));
}

#[test]
fn records_make_the_round_trip() {
    let with = |producer, payload| Record {
        kind: 255 - producer,
        producer,
        payload,
    };
    let records = [
        with(0, &b""[..]),
        with(7, &[9; 300]),
        with(3, b"x"),
        with(1, b""),
    ];
    let laid = run_of(&records).unwrap();
    assert_eq!(read_run(&laid), Ok(records.to_vec()));

    let mut part = [0xee; 512];
    assert_eq!(lay_out(&laid, u32::MAX - 511, 5, &mut part), Ok(()));
    assert_eq!(run(&part), laid);
    assert_eq!(decode(&part).map(|decoded| decoded.records), Ok(4));
    assert!(part[16 + laid.len()..].iter().all(|&byte| byte == 0xee));
}

#[test]
fn a_part_may_be_full() {
    for size in [64, 128, 256, 512, 1_024, 2_048, 4_096] {
        let mut part = vec![0xee; size];
        assert_eq!(lay_out(&vec![0; size - 16], 0, 0, &mut part), Ok(()));
        let decoded = decode(&part).unwrap();
        assert_eq!(decoded.used as usize, size);
        assert_eq!(decoded.records, (size - 16) / 4);
    }
}

#[test]
fn a_payload_has_at_most_65535_bytes() {
    let record = |payload| Record {
        kind: 1,
        producer: 2,
        payload,
    };
    let bytes = record(&[3; 65_535]).bytes().unwrap();
    assert_eq!(
        (bytes.len(), &bytes[..5]),
        (65_539, &[0xff, 0xff, 1, 2, 3][..])
    );
    assert_eq!(record(&[3; 65_536]).bytes(), None);
    assert_eq!(run_of(&[record(&[]), record(&[3; 65_536])]), None);
}

#[test]
fn what_is_too_short_for_a_header_is_left() {
    let mut short = [0xee; 15];
    write_header(&mut short, 0, 0);
    write_used(&mut short, 20);
    assert_eq!(short, [0xee; 15]);
}

#[test]
fn header_and_used_size_leave_each_other_alone() {
    let mut part = [0xee; 17];
    write_header(&mut part, 0x0403_0201, 0x0807_0605);
    let header = *b"VTR\x01\0\0\xee\xee\x01\x02\x03\x04\x05\x06\x07\x08\xee";
    assert_eq!(part, header);
    write_used(&mut part, 0x0003_0201);
    assert_eq!(part[..6], header[..6]);
    assert_eq!(part[6..8], [1, 2], "modulo 65,536");
    assert_eq!(part[8..], header[8..]);
}

#[test]
fn a_record_is_laid_where_it_fits() {
    let mut desk = [0xee; 7];
    lay_record(&mut desk, &[5; 4], 1, 2);
    assert_eq!(desk, [0xee; 7]);
    lay_record(&mut desk, &[5; 2], 1, 9);
    assert_eq!(desk, [2, 0, 1, 9, 5, 5, 0xee]);
    lay_record(&mut desk, &[5; 3], 1, 2);
    assert_eq!(desk, [3, 0, 1, 2, 5, 5, 5]);
    let mut large = vec![0xee; 70_000];
    lay_record(&mut large, &[5; 65_536], 1, 2);
    assert_eq!(large, vec![0xee; 70_000]);
}

#[test]
fn a_copy_needs_equal_lengths() {
    let mut dst = [1, 2];
    copy(&[3], &mut dst);
    copy(&[3, 4, 5], &mut dst);
    assert_eq!(dst, [1, 2]);
    copy(&[3, 4], &mut dst);
    assert_eq!(dst, [3, 4]);
}
