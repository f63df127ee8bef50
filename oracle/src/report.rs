//! How a comparison ends, and what it says of the cases it met. Agreement on cases
//! that never reach a rule says nothing about the rule, so each kind of case that
//! a comparison counts must have occurred.

use std::process::ExitCode;

use crate::bridge::Checked;

/// One line of the report: its title, then each kind of case and its number.
pub type Line = (&'static str, Vec<(&'static str, u64)>);

/// How many cases agree and what they met, or the words that tell of a failure.
pub type Outcome = Result<(u64, Vec<Line>), String>;

/// Declares the counts and their report as one, so that no kind of case is
/// counted and then left out of it.
#[macro_export]
macro_rules! tally {
    ($(#[$about:meta])* $($title:literal { $($kind:ident: $words:literal,)* })*) => {
        $(#[$about])*
        #[derive(Default)]
        pub struct Tally {
            $($(pub $kind: u64,)*)*
        }

        impl Tally {
            pub fn lines(&self) -> Vec<$crate::report::Line> {
                vec![$(($title, vec![$(($words, self.$kind)),*])),*]
            }
        }
    };
}

/// Says how the comparison made by `program` ended, and gives its exit status.
pub fn end(program: &str, outcome: Outcome) -> ExitCode {
    match outcome.and_then(|(cases, lines)| tell(program, cases, &lines)) {
        Ok(()) => ExitCode::SUCCESS,
        Err(words) => {
            eprintln!("{program}: {words}");
            ExitCode::FAILURE
        }
    }
}

/// Prints what occurred; agreement counts only if each kind of case did.
fn tell(program: &str, cases: u64, lines: &[Line]) -> Checked {
    for (title, kinds) in lines {
        let kinds: Vec<String> = kinds
            .iter()
            .map(|(kind, n)| format!("{kind} {n}"))
            .collect();
        println!("{title}: {}", kinds.join(", "));
    }
    for (title, kinds) in lines {
        if let Some((kind, _)) = kinds.iter().find(|(_, n)| *n == 0) {
            return Err(format!("no case met: {title}: {kind}"));
        }
    }
    println!("{program}: {cases} cases agree");
    Ok(())
}

#[cfg(test)]
mod tests {
    use super::*;

    tally! {
        /// A tally of two kinds.
        "title" {
            one: "first kind",
            other: "second kind",
        }
    }

    #[test]
    fn agreement_needs_each_kind_of_case() {
        let met = Tally { one: 3, other: 1 };
        assert_eq!(tell("program", 4, &met.lines()), Ok(()));
        let unmet = Tally { one: 3, other: 0 };
        let words = "no case met: title: second kind";
        assert_eq!(tell("program", 3, &unmet.lines()), Err(words.to_string()));
    }
}
