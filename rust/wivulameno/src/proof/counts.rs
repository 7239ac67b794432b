//! M, tau and n of a proof.

use super::soundness;
use crate::limits::{MAX_INSTANCES, MAX_PARTIES, PROOF_HEADER_LEN};

/// M instances, tau of them chosen, n parties.
#[derive(Clone, Copy, Debug, PartialEq, Eq, Hash)]
pub struct Counts {
    /// The instances, 2 to [`MAX_INSTANCES`].
    pub m: u32,
    /// The chosen instances, 1 to m - 1.
    pub tau: u32,
    /// The parties, 2, 4, 8, 16, 32 or 64.
    pub n: u32,
}

impl Counts {
    /// The counts that a proof begins with. `None` if this is no proof's header,
    /// which [`check`](super::check) refuses with 11.
    ///
    /// The prover chooses the counts: look at
    /// [`soundness_bits`](Counts::soundness_bits) before a proof is believed.
    pub fn of_proof(proof: &[u8]) -> Option<Counts> {
        let &[m0, m1, tau0, tau1, n, zero, ..] = proof else {
            return None;
        };
        let counts = Counts {
            m: u16::from_le_bytes([m0, m1]).into(),
            tau: u16::from_le_bytes([tau0, tau1]).into(),
            n: n.into(),
        };
        let is_header = proof.len() >= PROOF_HEADER_LEN && zero == 0 && counts.are_legal();
        is_header.then_some(counts)
    }

    /// Are all three within their limits? If not, proving is refused with 8.
    pub const fn are_legal(self) -> bool {
        let Counts { m, tau, n } = self;
        let instances = 2 <= m && m <= MAX_INSTANCES;
        let chosen = 1 <= tau && tau < m;
        let parties = 2 <= n && n <= MAX_PARTIES && n.is_power_of_two();
        instances && chosen && parties
    }

    /// Soundness in bits: the binary logarithm of 1/ε for the soundness error ε
    /// of formula (1) in Katz, Kolesnikov and Wang (2018), which bounds what a
    /// prover without a witness can hope for at each challenge that it tries.
    /// The bound is a theorem of that paper. `None` for counts that are out of
    /// the limits.
    ///
    /// ```
    /// use wivulameno::proof::Counts;
    ///
    /// let bits = |m, tau, n| Counts { m, tau, n }.soundness_bits();
    /// assert!(bits(145, 66, 8) >= Some(128.0));
    /// assert_eq!(bits(2, 1, 16), Some(1.0)); // every second guess passes
    /// assert_eq!(bits(2, 2, 16), None);
    /// ```
    pub fn soundness_bits(self) -> Option<f64> {
        let Counts { m, tau, n } = self;
        self.are_legal().then(|| soundness::bits(m, tau, n))
    }

    /// The levels of a tree of seeds.
    pub(super) const fn height(self) -> usize {
        self.n.ilog2() as usize
    }
}

#[cfg(test)]
mod tests {
    use super::*;

    fn counts(m: u32, tau: u32, n: u32) -> Counts {
        Counts { m, tau, n }
    }

    #[test]
    fn the_ends_of_the_limits() {
        for legal in [
            (2, 1, 2),
            (512, 1, 4),
            (512, 511, 8),
            (3, 2, 16),
            (4, 1, 32),
            (512, 2, 64),
        ] {
            let (m, tau, n) = legal;
            assert!(counts(m, tau, n).are_legal(), "{legal:?}");
            assert!(counts(m, tau, n).soundness_bits().is_some(), "{legal:?}");
        }
        let illegal = [
            (0, 0, 2),
            (1, 0, 2),
            (1, 1, 2),
            (2, 0, 2),
            (2, 2, 2),
            (513, 1, 2),
            (u32::MAX, 1, 2),
            (4, u32::MAX, 2),
            (4, 1, 0),
            (4, 1, 1),
            (4, 1, 3),
            (4, 1, 48),
            (4, 1, 63),
            (4, 1, 65),
            (4, 1, 128),
            (4, 1, 1 << 31),
        ];
        for (m, tau, n) in illegal {
            assert!(!counts(m, tau, n).are_legal(), "{m} {tau} {n}");
            assert_eq!(counts(m, tau, n).soundness_bits(), None, "{m} {tau} {n}");
        }
    }

    #[test]
    fn of_a_header() {
        let mut proof = [7; 70];
        proof[..6].copy_from_slice(&[145, 0, 66, 0, 8, 0]);
        assert_eq!(Counts::of_proof(&proof), Some(counts(145, 66, 8)));
        assert_eq!(Counts::of_proof(&proof[..69]), None);
        assert_eq!(Counts::of_proof(&[]), None);
        for (place, value) in [(0, 66), (1, 2), (3, 1), (4, 9), (5, 1)] {
            let mut other = proof;
            other[place] = value;
            assert_eq!(Counts::of_proof(&other), None, "{place}");
        }
    }
}
