//! What the compared cases have met.

oracle::tally! {
    /// How often each kind of case occurred.
    ///
    /// Where S, N and z matter, only a case that a ring can meet counts, one
    /// with allowed ones. The wrap of a is the exception: no allowed header
    /// takes a past zero.
    "shape" {
        shape_allowed: "allowed",
        shape_refused: "refused",
    }
    "slots" {
        enters_at_once: "o = 0",
        enters_nothing: "fits",
        closes: "closes",
        exact_fit: "exact fit",
        exact_fit_inside: "exact fit with nothing entered",
    }
    "judge" {
        full: "full",
        full_by_b: "full by exactly B",
        room: "room",
    }
    "ready test" {
        ready: "ready",
        ready_by_lap: "ready only modulo 2^32 / N",
        not_ready: "not ready",
    }
    "look of a commit" {
        look_goes_on: "goes on",
        look_done: "done",
    }
    "raise test" {
        raise: "raise",
        done_equal: "done (0)",
        done_behind: "done (at least 2^31)",
    }
    "division" {
        exact: "exact",
        inexact: "with a remainder",
        by_zero: "by zero",
    }
    "wraps through zero" {
        position_plus_wraps: "position sum",
        position_since_wraps: "position distance",
        commit_plus_wraps: "commit sum",
        commit_since_wraps: "commit distance",
        next_wraps: "next",
        t_wraps: "t",
        a_wraps: "a",
        e_wraps: "e",
        read_wraps: "t - read",
        seq_wraps: "seq - S of a ready",
        raise_wraps: "v - s of a raise",
    }
}
