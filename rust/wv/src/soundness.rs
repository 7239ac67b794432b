//! Counts for a wished soundness. The formula is that of
//! [`Counts::soundness_bits`].

use wivulameno::limits::{MAX_INSTANCES, MAX_PARTIES};
use wivulameno::proof::Counts;

/// Soundness in bits; 0 for counts that are out of the limits.
pub fn bits(m: u32, tau: u32, n: u32) -> f64 {
    let bits = Counts { m, tau, n }.soundness_bits();
    bits.unwrap_or(0.0)
}

/// The least M up to `most` with this soundness. For fixed τ and n more instances
/// have no less of it.
pub fn least_m(goal: f64, tau: u32, n: u32, most: u32) -> Option<u32> {
    let is_enough = |m: u32| bits(m, tau, n) >= goal;
    let (mut low, mut high) = (tau + 1, most);
    if low > high || !is_enough(high) {
        return None;
    }
    while low < high {
        let middle = (low + high) / 2;
        match is_enough(middle) {
            true => high = middle,
            false => low = middle + 1,
        }
    }
    Some(low)
}

/// For each number of parties, by rising n, the counts of this soundness that make
/// the shortest proofs, and those with the fewest instances if these are others.
pub fn good_counts(goal: f64, bytes: impl Fn(Counts) -> usize) -> Vec<Counts> {
    let parties = (1..=MAX_PARTIES.ilog2()).map(|height| 1 << height);
    parties.flat_map(|n| good_for(goal, n, &bytes)).collect()
}

fn good_for(goal: f64, n: u32, bytes: impl Fn(Counts) -> usize) -> Vec<Counts> {
    let counts = (1..MAX_INSTANCES).filter_map(|tau| {
        let m = least_m(goal, tau, n, MAX_INSTANCES)?;
        let counts = Counts { m, tau, n };
        Some((bytes(counts), counts))
    });
    let counts: Vec<(usize, Counts)> = counts.collect();
    let shortest = counts.iter().min_by_key(|(bytes, _)| *bytes);
    let fewest = counts
        .iter()
        .min_by_key(|(bytes, counts)| (counts.m, *bytes));
    let mut good: Vec<Counts> = shortest
        .into_iter()
        .chain(fewest)
        .map(|row| row.1)
        .collect();
    good.dedup();
    good
}

#[cfg(test)]
mod tests {
    use super::*;

    /// Rows of table 1 of the paper: each M is the least one for its τ and n.
    #[test]
    fn least_ms_of_the_papers_table() {
        for (n, m, tau) in [(4, 218, 65), (8, 252, 44), (16, 352, 33), (32, 462, 27)] {
            assert_eq!(least_m(128.0, tau, n, 512), Some(m), "{n}");
        }
        assert_eq!(least_m(128.0, 60, 4, 512), None);
        // The table has M 631 and tau 23 for n 64; a proof has at most 512 instances.
        assert_eq!(least_m(128.0, 23, 64, 512), None);
        assert_eq!(least_m(128.0, 25, 64, 512), Some(439));
    }

    /// The first M that is enough, found by trying each.
    #[test]
    fn least_by_trying_each() {
        for (goal, tau, n) in [(20.0, 5, 16), (20.0, 11, 4), (40.0, 44, 2), (40.0, 150, 8)] {
            let first = (tau + 1..=512).find(|&m| bits(m, tau, n) >= goal);
            assert_eq!(least_m(goal, tau, n, 512), first, "{tau} {n}");
        }
        assert_eq!(least_m(1.0, 9, 2, 9), None);
    }

    /// No other counts of so many bits make a shorter proof, or have fewer instances.
    #[test]
    fn good_by_trying_all() {
        let bytes = |counts: Counts| {
            let tau = counts.tau as usize;
            70 + 48 * (counts.m as usize - tau) + tau * (16 * counts.n.ilog2() as usize + 41)
        };
        let good = good_counts(20.0, bytes);
        for height in 1..=MAX_PARTIES.ilog2() {
            let n = 1 << height;
            let all = (2..=100).flat_map(|m| (1..m).map(move |tau| Counts { m, tau, n }));
            let all: Vec<_> = all.filter(|c| c.soundness_bits() >= Some(20.0)).collect();
            let mine: Vec<_> = good.iter().filter(|counts| counts.n == n).collect();
            assert!((1..=2).contains(&mine.len()), "{n}");
            let least = |of: &dyn Fn(&Counts) -> usize| {
                let ours = mine.iter().map(|counts| of(counts)).min();
                assert_eq!(ours, all.iter().map(of).min(), "{n}");
            };
            least(&|counts| bytes(*counts));
            least(&|counts| counts.m as usize);
        }
    }

    #[test]
    fn no_soundness_out_of_the_limits() {
        assert_eq!(bits(2, 2, 4), 0.0);
        assert_eq!(bits(916, 20, 128), 0.0);
    }
}
