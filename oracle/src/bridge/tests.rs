//! Trials of the asking side, with small programs in the bridge's stead. One that
//! copies its input answers each call with the call.

use std::cell::RefCell;
use std::rc::Rc;

use super::*;

fn stub(program: &str, arguments: &[&str]) -> Bridge {
    Bridge::spawn(Command::new(program).args(arguments)).expect("every system has it")
}

fn call(number: u64, lengths: [usize; 3]) -> Frame {
    Frame {
        numbers: [number, 1, 2, 3, 4, 5, 6, u64::MAX],
        strings: lengths.map(|length| vec![number as u8; length]),
    }
}

/// Asks for copies, to the bridge's end.
fn copies(mut bridge: Bridge, calls: u64, lengths: [usize; 3]) -> Checked {
    for number in 0..calls {
        bridge.ask(&call(number, lengths), move |answer| {
            if answer == call(number, lengths) {
                return Ok(());
            }
            Err(format!("mismatch {number}"))
        })?;
    }
    bridge.finish()
}

#[test]
fn frames_come_back_whole() {
    assert_eq!(copies(stub("cat", &[]), 100, [0, 1, 300]), Ok(()));
}

#[test]
fn no_batch_is_too_large_for_the_pipes() {
    assert_eq!(copies(stub("cat", &[]), 60_000, [0; 3]), Ok(()));
    assert_eq!(copies(stub("cat", &[]), 40, [LONGEST; 3]), Ok(()));
}

#[test]
fn answers_are_checked_in_order() {
    let seen = Rc::new(RefCell::new(Vec::new()));
    let mut bridge = stub("cat", &[]);
    for number in 0..5 {
        let seen = Rc::clone(&seen);
        let note = move |answer: Frame| {
            seen.borrow_mut().push(answer.numbers[0]);
            Ok(())
        };
        assert_eq!(bridge.ask(&call(number, [0; 3]), note), Ok(()));
    }
    assert_eq!(bridge.finish(), Ok(()));
    assert_eq!(*seen.borrow(), [0, 1, 2, 3, 4]);
}

#[test]
fn a_failed_check_is_told_of_though_calls_are_left() {
    let mut bridge = stub("cat", &[]);
    let fail = |_| Err("mismatch".to_string());
    let asked = (0..60_000).try_for_each(|number| bridge.ask(&call(number, [0; 3]), fail));
    assert_eq!(asked, Err("mismatch".to_string()));
}

#[test]
fn a_bridge_that_dies_fails_the_comparison() {
    let words = "the bridge answers 0 of 3 calls: it ended with exit status: 7";
    let dead = copies(stub("sh", &["-c", "exit 7"]), 3, [0; 3]);
    assert_eq!(dead, Err(words.to_string()));
}

#[test]
fn a_bridge_that_answers_short_fails_the_comparison() {
    let words = "the bridge answers 2 of 3 calls: it ended with exit status: 0";
    let short = copies(stub("head", &["-c", "200"]), 3, [0; 3]);
    assert_eq!(short, Err(words.to_string()));
}

#[test]
fn a_bridge_that_ends_badly_fails_the_comparison() {
    let words = "the bridge ended with exit status: 7";
    let bad = copies(stub("sh", &["-c", "cat; exit 7"]), 3, [0; 3]);
    assert_eq!(bad, Err(words.to_string()));
}

#[test]
fn answers_beyond_the_calls_fail_the_comparison() {
    let words = "the bridge answers more than it was asked";
    let more = copies(stub("sh", &["-c", "cat; echo more"]), 3, [0; 3]);
    assert_eq!(more, Err(words.to_string()));
}

/// This one never reads a call, so the writer waits until the bridge is ended.
#[test]
fn a_length_that_no_string_has_fails_the_comparison() {
    let length = u64::from_le_bytes(*b"y\ny\ny\ny\n");
    let sent = BATCH.div_ceil(HEADER);
    let words = format!("the bridge answers 0 of {sent} calls: a string of {length} bytes");
    let mut bridge = stub("yes", &[]);
    let pass = |_| Ok(());
    let asked = (0..60_000).try_for_each(|number| bridge.ask(&call(number, [0; 3]), pass));
    assert_eq!(asked, Err(words));
}
