//! Document 01's input and output, then each form of a line.

use super::*;

const INPUT: &str = "\
new 64 2 2 0
offer 0 1 2
run 0
offer 1 2 40
run 1
get
offer 0 3 2
run 0
put
offer 0 4 2
run 0
";

const OUTPUT: &str = "\
0 0 0 0 0 0
0 0 0 1 0 0
0 22 0 1 1 0
0 22 0 2 1 0
0 124 0 2 2 0
0 124 0 2 2 0
0 124 0 3 2 0
0 124 0 3 2 1
0 124 64 3 2 1
0 124 64 4 2 1
0 150 64 4 3 1
";

/// What a line prints after an accepted `new`, and whether the program goes on.
fn second(line: &str) -> String {
    let output = replay(format!("new 64 2 2 128\n{line}\nget\n").as_bytes());
    let rest = output.strip_prefix("0 128 128 0 0 0\n").expect("accepted");
    rest.to_string()
}

fn is_bad(line: &str) -> bool {
    second(line) == "bad line\n"
}

#[test]
fn the_worked_example_prints_what_it_should() {
    assert_eq!(replay(INPUT.as_bytes()), OUTPUT);
}

#[test]
fn nothing_prints_nothing() {
    assert_eq!(replay(b""), "");
}

#[test]
fn the_first_line_is_a_new_that_is_accepted() {
    for first in [
        "",
        "get",
        "put",
        "run 0",
        "new 64 2 2",
        "new 64 2 9 0",
        "new 64 2 2 1",
    ] {
        let input = format!("{first}\n{INPUT}");
        assert_eq!(replay(input.as_bytes()), "bad line\n", "{first}");
    }
}

#[test]
fn a_last_line_may_lack_its_line_end() {
    assert_eq!(replay(INPUT.trim_end().as_bytes()), OUTPUT);
    assert_eq!(replay(b"new 64 2 2 0\nhalt"), "0 0 0 0 0 0\nbad line\n");
}

#[test]
fn each_call_prints_its_answer() {
    let after = "7 128 128 0 0 0\n";
    for (line, words) in [
        ("offer 2 1 2", "3 128 128 0 0 0\n"),
        ("offer 0 1 45", "5 128 128 0 0 0\n"),
        ("offer 0 1 65535", "5 128 128 0 0 0\n"),
        ("flush 4294967295", "3 128 128 0 0 0\n"),
        ("flush 1", "0 128 128 0 0 0\n"),
        ("step 0", "6 128 128 0 0 0\n"),
        ("step 2", "3 128 128 0 0 0\n"),
        ("run 0", "6 128 128 0 0 0\n"),
        ("run 2", "3 128 128 0 0 0\n"),
        ("put", "9 128 128 0 0 0\n"),
        ("new 63 2 2 1", "1 128 128 0 0 0\n"),
        ("new 64 2 2 64", "2 128 128 0 0 0\n"),
    ] {
        assert_eq!(second(line), format!("{words}{after}"), "{line}");
    }
}

#[test]
fn a_later_new_starts_a_new_ring() {
    let words = "0 4294967040 4294967040 0 0 0\n7 4294967040 4294967040 0 0 0\n";
    assert_eq!(second("new 64 4 8 4294967040"), words);
}

#[test]
fn zeros_may_lead_a_number() {
    assert_eq!(second("flush 0001"), second("flush 1"));
    let long = format!("offer {}1 0255 00044", "0".repeat(99));
    assert_eq!(second(&long), second("offer 1 255 44"));
    assert!(!is_bad(&long));
}

#[test]
fn numbers_have_limits() {
    for line in [
        "flush 4294967296",
        "flush 18446744073709551616",
        "offer 0 256 0",
        "offer 0 1 65536",
        "new 64 2 2 4294967296",
    ] {
        assert!(is_bad(line), "{line}");
    }
}

#[test]
fn other_forms_are_bad_lines() {
    for line in [
        "",
        " ",
        "halt",
        "GET",
        "get ",
        " get",
        "get 0",
        "put\r",
        "flush",
        "flush ",
        "flush  0",
        "flush\t0",
        "flush -1",
        "flush +1",
        "flush 0x1",
        "flush 1 1",
        "step",
        "run",
        "run 1.",
        "offer 0 1",
        "offer 0 1 2 3",
        "new 64 2 2",
        "new 64 2 2 0 0",
        "get\0",
        "flush \u{661}",
    ] {
        assert!(is_bad(line), "{line:?}");
    }
    assert_eq!(
        replay(b"new 64 2 2 0\nget\xff\n"),
        "0 0 0 0 0 0\nbad line\n"
    );
}

#[test]
fn lines_are_read_as_they_are_written() {
    for line in INPUT.lines() {
        let read = Line::parse(line.as_bytes()).expect("a good line");
        assert_eq!(read.to_string(), line);
    }
}
