//! What came of the calls: how many were made, what they answered, and where the library and the reference differ.

use crate::calls::{Call, Input};
use std::panic::{catch_unwind, AssertUnwindSafe};

/// The highest number of a refusal.
const HIGHEST: usize = 21;

/// The answers of one call. `refused[n]` counts refusal n.
#[derive(Clone, Debug, Default, PartialEq, Eq)]
pub struct Answers {
    pub calls: u64,
    pub results: u64,
    pub refused: [u64; HIGHEST + 1],
    pub differences: u64,
}

impl Answers {
    fn note(&mut self, answer: i64) {
        self.calls += 1;
        match usize::try_from(-answer) {
            Ok(number @ 1..=HIGHEST) => self.refused[number] += 1,
            _ => self.results += 1,
        }
    }

    pub fn add(&mut self, other: &Answers) {
        self.calls += other.calls;
        self.results += other.results;
        self.differences += other.differences;
        for (sum, count) in self.refused.iter_mut().zip(other.refused) {
            *sum += count;
        }
    }
}

/// Puts an input to each call that takes such a one; `answers` has a place for each call. Gives what to print of each difference.
pub fn put(calls: &[Call], input: &Input, answers: &mut [Answers]) -> Vec<String> {
    let mut differences = Vec::new();
    for (call, answers) in calls.iter().zip(answers) {
        if call.takes == input.takes {
            match compared(call, input) {
                Ok(given) => given.into_iter().for_each(|answer| answers.note(answer)),
                Err(why) => {
                    answers.differences += 1;
                    differences.push(format!("{why}\n    --replay {} {input}", call.name));
                }
            }
        }
    }
    differences
}

/// The library's answers, or what the comparison says of the first difference.
pub fn compared(call: &Call, input: &Input) -> Result<Vec<i64>, String> {
    catch_unwind(AssertUnwindSafe(|| (call.compare)(input))).map_err(|panic| {
        let said = panic.downcast_ref::<String>().cloned();
        said.or(panic.downcast_ref::<&str>().map(|text| text.to_string())).unwrap_or_default()
    })
}

#[cfg(test)]
mod tests {
    use super::*;
    use crate::calls::{Takes, CALLS};
    use crate::inputs::inputs;

    #[test]
    fn rounds_without_a_difference_and_with_every_refusal() {
        let mut answers = vec![Answers::default(); CALLS.len()];
        for seed in 0..4000 {
            for input in inputs(seed) {
                assert_eq!(put(CALLS, &input, &mut answers), Vec::<String>::new(), "seed {seed}");
            }
        }
        // Each call gave results and every refusal that it has, and no other.
        for (call, answers) in CALLS.iter().zip(&answers) {
            assert!(answers.results > 0, "{}: {answers:?}", call.name);
            for number in 1..=HIGHEST {
                assert_eq!(answers.refused[number] > 0, call.refuses.contains(&number), "{}, {number}: {answers:?}", call.name);
            }
        }
    }

    #[test]
    fn a_difference_is_told_with_its_input() {
        let call = |name, takes, compare| Call { name, takes, refuses: &[5], compare };
        let wrong = call("wrong", Takes::Piece, |given| vec![[0, -5][given.first.len()]]);
        let right = call("right", Takes::Piece, |_| vec![0]);
        let other = call("other", Takes::Row, |_| panic!("not asked"));
        let mut answers = vec![Answers::default(); 3];
        let calls = [wrong, right, other];
        for length in 0..3 {
            let input = Input { takes: Takes::Piece, mode: 0, first: vec![7; length], second: vec![] };
            let differences = put(&calls, &input, &mut answers);
            assert_eq!(differences.len(), usize::from(length == 2));
            assert!(differences.iter().all(|text| text.ends_with("--replay wrong 0 0707 -")));
        }
        assert_eq!((answers[0].calls, answers[0].results, answers[0].refused[5], answers[0].differences), (2, 1, 1, 1));
        assert_eq!((answers[1].calls, answers[1].differences), (3, 0));
        assert_eq!(answers[2], Answers::default());
    }
}
