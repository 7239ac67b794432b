//! Counts how often each outcome occurred, so that a test can ask for enough.

use std::collections::BTreeMap;

/// The number of times for each outcome: 0 for success, else the refusal.
#[derive(Debug, Default)]
pub struct Outcomes(BTreeMap<u32, usize>);

impl Outcomes {
    pub fn add(&mut self, outcome: u32) {
        *self.0.entry(outcome).or_default() += 1;
    }

    pub fn add_answer<T>(&mut self, answer: &Result<T, u32>) {
        self.add(answer.as_ref().err().copied().unwrap_or(0));
    }

    /// Each of these outcomes must have occurred `least` times.
    pub fn expect_some(&self, outcomes: &[u32], least: usize) {
        for outcome in outcomes {
            let times = self.0.get(outcome).copied().unwrap_or(0);
            assert!(times >= least, "outcome {outcome}: {times} of {least}");
        }
    }

    /// Each of these outcomes must have occurred `least` times, and no other.
    pub fn expect(&self, outcomes: &[u32], least: usize) {
        self.expect_some(outcomes, least);
        let other = self.0.keys().find(|key| !outcomes.contains(key));
        assert_eq!(other, None, "an outcome that was not expected");
    }
}

#[cfg(test)]
mod tests {
    use super::*;

    fn some() -> Outcomes {
        let mut outcomes = Outcomes::default();
        outcomes.add_answer(&Ok(()));
        outcomes.add_answer::<()>(&Err(3));
        outcomes.add(3);
        outcomes
    }

    #[test]
    fn enough() {
        some().expect(&[0, 3], 1);
    }

    #[test]
    #[should_panic(expected = "outcome 0: 1 of 2")]
    fn too_few() {
        some().expect(&[0, 3], 2);
    }

    #[test]
    #[should_panic(expected = "not expected")]
    fn another() {
        some().expect(&[3], 1);
    }
}
