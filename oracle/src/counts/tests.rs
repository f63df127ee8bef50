//! Document 01's rows P1 to P13, then the decisions of the module's header.

use super::*;

/// Rows P1 to P6: padding, slot, e, end.
fn slot(w: u32, z: u32) -> (u32, u32, u32, bool) {
    let place = place(w, z, 64, 16);
    (place.padding, place.a, place.e, place.ends)
}

#[test]
fn p1() {
    assert_eq!(slot(0, 6), (0, 16, 22, false));
}

#[test]
fn p2() {
    assert_eq!(slot(22, 42), (0, 22, 64, true));
}

#[test]
fn p3() {
    assert_eq!(slot(22, 43), (42, 80, 123, false));
}

#[test]
fn p4() {
    assert_eq!(slot(64, 48), (0, 80, 128, true));
}

#[test]
fn p5() {
    assert_eq!(slot(20, 48), (44, 80, 128, true));
}

#[test]
fn p6() {
    assert_eq!(slot(4_294_967_274, 23), (22, 16, 39, false));
}

#[test]
fn p7() {
    assert!(full(true, 128, 0, 64, 2));
}

#[test]
fn p8() {
    assert!(!full(true, 128, 64, 64, 2));
}

#[test]
fn p9() {
    assert!(ready(0, 64, 64, 2));
}

#[test]
fn p10() {
    assert!(!ready(0, 0, 64, 2));
}

#[test]
fn p11() {
    assert!(ready(4_294_967_168, 2_147_483_648, 64, 2));
}

#[test]
fn p12() {
    assert!(raises(0, 4_294_967_232));
}

#[test]
fn p13() {
    assert!(!raises(64, 128));
}

#[test]
fn an_event_that_enters_nothing_is_never_full() {
    assert!(!full(false, 128, 0, 64, 2));
}

#[test]
fn slot_cases_name_their_sub_buffer() {
    let named = |w, z| {
        let place = place(w, z, 64, 16);
        (place.closes, place.enters, place.t)
    };
    assert_eq!(named(64, 4), (false, true, 64));
    assert_eq!(named(84, 4), (false, false, 64));
    assert_eq!(named(84, 48), (true, true, 128));
}

#[test]
fn a_position_stands_in_one_sub_buffer() {
    let bounds = |x| (start(x, 64), offset(x, 64), left(x, 64), next(x, 64));
    assert_eq!(bounds(64), (64, 0, 64, 128));
    assert_eq!(bounds(86), (64, 22, 42, 128));
    assert_eq!(bounds(u32::MAX), (u32::MAX - 63, 63, 1, 0));
}

#[test]
fn a_look_goes_on_at_multiples_of_s() {
    assert!(round(0, 64) && round(128, 64));
    assert!(!round(127, 64) && !round(129, 64));
}

#[test]
fn a_shape_needs_all_three() {
    assert!(shape_allowed(64, 2, 1) && shape_allowed(4_096, 16, 8));
    assert!(!shape_allowed(63, 2, 1) && !shape_allowed(64, 3, 1) && !shape_allowed(64, 2, 9));
}

#[test]
fn fit_test_takes_the_exact_sum() {
    assert!(place(22, u32::MAX - 21, 64, 16).closes);
}

#[test]
fn ring_bytes_are_the_exact_product() {
    assert_eq!(byte(128, (1 << 31) + 64, 2), 128);
    assert!(!full(true, u32::MAX, 0, 1 << 31, 2));
}

#[test]
fn nothing_is_divided_by_zero() {
    let place = place(5, 4, 0, 16);
    assert_eq!((place.padding, place.closes, place.t), (0, true, 5));
    assert_eq!((start(5, 0), left(5, 0), next(5, 0)), (0, 0, 5));
    assert!(round(0, 0) && !round(5, 0));
    assert_eq!((remainder(5, 0), quotient(5, 0)), (5, 0));
    assert_eq!((byte(5, 0, 2), part(5, 0, 2)), (5, 0));
    assert_eq!(to_commit(5, 64, 0), 0);
    assert!(ready(5, 64, 64, 0));
}
