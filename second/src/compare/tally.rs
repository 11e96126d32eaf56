//! How often each answer of a kind of cases was met.

use std::fmt;

pub struct Tally {
    kind: &'static str,
    answers: &'static [&'static str],
    counts: Vec<u64>,
}

impl Tally {
    /// None of these answers so far.
    pub fn new(kind: &'static str, answers: &'static [&'static str]) -> Tally {
        Tally { kind, answers, counts: vec![0; answers.len()] }
    }

    /// One more of the answer that the text begins with, up to the numbers that it may have further.
    pub fn count(&mut self, answer: &str) {
        self.count_times(answer, 1);
    }

    /// So many more of it.
    pub fn count_times(&mut self, answer: &str, times: u64) {
        let is_met =
            |name: &&str| answer.strip_prefix(name).is_some_and(|rest| rest.is_empty() || rest.starts_with(' '));
        let at = self.answers.iter().position(is_met).expect("there is no other answer");
        self.counts[at] += times;
    }

    /// The answers that were never met.
    pub fn missing(&self) -> Vec<&'static str> {
        let missing = self.answers.iter().zip(&self.counts).filter(|(_, count)| **count == 0);
        missing.map(|(name, _)| *name).collect()
    }
}

impl fmt::Display for Tally {
    fn fmt(&self, out: &mut fmt::Formatter) -> fmt::Result {
        write!(out, "{}: {} compared", self.kind, self.counts.iter().sum::<u64>())?;
        let mut counts = self.answers.iter().zip(&self.counts).enumerate();
        counts.try_for_each(|(at, (name, count))| write!(out, "{} {name}: {count}", if at == 0 { ";" } else { "," }))
    }
}
