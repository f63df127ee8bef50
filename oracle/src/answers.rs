//! How often each call was done, and refused with each number that it can give.

use std::collections::BTreeMap;

use crate::report::Line;

/// The words for an answer: 0, or the number of a refusal.
const WORDS: [&str; 19] = [
    "done", "1", "2", "3", "4", "5", "6", "7", "8", "9", "10", "11", "12", "13", "14", "15", "16",
    "17", "18",
];

/// A call's name, and the answers that it can give.
pub type Call = (&'static str, &'static [u32]);

pub struct Answers {
    calls: &'static [Call],
    counts: BTreeMap<(&'static str, u32), u64>,
}

impl Answers {
    /// No answer yet, to any of these calls.
    pub fn new(calls: &'static [Call]) -> Self {
        let each = |&(name, answers): &Call| answers.iter().map(move |&answer| (name, answer));
        let all = calls.iter().flat_map(each);
        Answers {
            calls,
            counts: all.map(|pair| (pair, 0)).collect(),
        }
    }

    /// Counts an answer, which must be one that the call can give.
    pub fn count(&mut self, call: &'static str, answer: u32) {
        match self.counts.get_mut(&(call, answer)) {
            Some(count) => *count += 1,
            None => panic!("{call} doesn't answer {answer}"),
        }
    }

    pub fn lines(&self) -> Vec<Line> {
        let line = |&(name, answers): &Call| {
            let kinds = answers.iter().map(|&answer| {
                let words = WORDS[answer as usize];
                (words, self.counts[&(name, answer)])
            });
            (name, kinds.collect())
        };
        self.calls.iter().map(line).collect()
    }
}

#[cfg(test)]
mod tests {
    use super::*;

    #[test]
    fn each_answer_has_its_count() {
        let mut answers = Answers::new(&[("get", &[0, 7]), ("put", &[0, 9])]);
        answers.count("get", 7);
        answers.count("get", 7);
        answers.count("put", 0);
        let lines = [
            ("get", vec![("done", 0), ("7", 2)]),
            ("put", vec![("done", 1), ("9", 0)]),
        ];
        assert_eq!(answers.lines(), lines);
    }

    #[test]
    #[should_panic(expected = "put doesn't answer 7")]
    fn a_call_has_its_own_answers() {
        Answers::new(&[("put", &[0, 9])]).count("put", 7);
    }
}
