//! How long a proof is.

use super::Counts;
use crate::circuit::Sizes;
use crate::limits::{DIGEST_LEN, PROOF_HEADER_LEN, ROOT_LEN};

/// The room that [`prove`](super::prove) asks for: the bytes of a proof with M - tau
/// opened nodes, in which no chosen instance hides the last party. No proof is longer;
/// the longest that can be written opens [`most_opened`] nodes, which can be fewer.
/// `None` if a number is out of its limits.
///
/// ```
/// use wivulameno::circuit::Sizes;
/// use wivulameno::proof::{longest_proof, Counts};
///
/// let sizes = Sizes { inputs: 32, outputs: 17, gates: 63, ands: 16 };
/// let counts = Counts { m: 145, tau: 66, n: 8 };
/// assert_eq!(longest_proof(sizes, counts), Some(9868));
/// ```
pub const fn longest_proof(sizes: Sizes, counts: Counts) -> Option<usize> {
    proof_len(sizes, counts, counts.m.saturating_sub(counts.tau), 0)
}

/// The bytes of a proof with so many opened nodes of the masters' tree, in which so
/// many of the chosen instances hide the last party: these send no corrections.
/// `None` if a number is out of its limits, more than M - tau nodes are opened, or
/// more than tau instances hide the last party.
pub const fn proof_len(
    sizes: Sizes,
    counts: Counts,
    opened: u32,
    hiding_last: u32,
) -> Option<usize> {
    let Counts { m, tau, .. } = counts;
    if !sizes.are_legal() || !counts.are_legal() || opened > m - tau || hiding_last > tau {
        return None;
    }
    let cover = opened as usize * ROOT_LEN;
    let not_chosen = (m - tau) as usize * DIGEST_LEN;
    let chosen = tau as usize * longest_chosen(sizes, counts);
    let saved = hiding_last as usize * oct(sizes.ands);
    Some(PROOF_HEADER_LEN + cover + not_chosen + chosen - saved)
}

/// The most nodes of the masters' tree that are opened for any tau chosen instances.
/// `None` if M is not 2 to 512 or tau is not 1 to M - 1.
///
/// ```
/// use wivulameno::proof::most_opened;
///
/// assert_eq!(most_opened(4, 1), Some(2));
/// assert_eq!(most_opened(4, 2), Some(2)); // 0 and 2, say; for 0 and 1 it is one
/// assert_eq!(most_opened(343, 27), Some(97));
/// ```
pub fn most_opened(m: u32, tau: u32) -> Option<u32> {
    let legal = Counts { m, tau, n: 2 }.are_legal();
    legal.then(|| most_below(m.next_power_of_two(), m)[tau as usize])
}

/// For each number of hidden leaves, the most nodes that are opened below a node with
/// so many leaves of which the first `real` are not spare, its parent having a hidden
/// one: itself if none is hidden.
fn most_below(leaves: u32, real: u32) -> Vec<u32> {
    if real == 0 {
        return vec![0];
    }
    if leaves == 1 {
        return vec![1, 0];
    }
    let left = most_below(leaves / 2, real.min(leaves / 2));
    let right = most_below(leaves / 2, real.saturating_sub(leaves / 2));
    let mut most = vec![0; real as usize + 1];
    for (a, left) in left.iter().enumerate() {
        for (b, right) in right.iter().enumerate() {
            most[a + b] = most[a + b].max(left + right);
        }
    }
    most[0] = 1;
    most
}

/// Siblings, corrections, the hidden party's commitment, the masked inputs and
/// the hidden party's broadcast row.
const fn longest_chosen(sizes: Sizes, counts: Counts) -> usize {
    let siblings = ROOT_LEN * counts.height();
    let row = oct(sizes.ands + sizes.outputs);
    siblings + oct(sizes.ands) + DIGEST_LEN + oct(sizes.inputs) + row
}

/// The bytes of so many bits.
pub(crate) const fn oct(bits: u32) -> usize {
    bits.div_ceil(8) as usize
}

#[cfg(test)]
mod tests {
    use super::*;
    use crate::limits::MAX_PROOF;

    const K: Sizes = Sizes {
        inputs: 2,
        outputs: 1,
        gates: 1,
        ands: 1,
    };

    fn counts(m: u32, tau: u32, n: u32) -> Counts {
        Counts { m, tau, n }
    }

    /// m10 of the paper: 249 bytes if p = 0, 248 if p = 1. Two nodes are opened, and
    /// the room is for three.
    #[test]
    fn the_marked_case() {
        assert_eq!(longest_proof(K, counts(4, 1, 2)), Some(265));
        assert_eq!(proof_len(K, counts(4, 1, 2), 3, 0), Some(265));
        assert_eq!(proof_len(K, counts(4, 1, 2), 2, 0), Some(249));
        assert_eq!(proof_len(K, counts(4, 1, 2), 2, 1), Some(248));
        assert_eq!(proof_len(K, counts(4, 1, 2), 2, 2), None);
        assert_eq!(proof_len(K, counts(4, 1, 2), 4, 0), None);
    }

    /// By hand: one hidden leaf of 2^k opens k nodes; of five, a sibling, a node of two
    /// and the node with the fifth. All but one hidden open one.
    #[test]
    fn opened_nodes() {
        for k in 1..=9 {
            assert_eq!(most_opened(1 << k, 1), Some(k));
            assert_eq!(most_opened(1 << k, (1 << k) - 1), Some(1));
            assert_eq!(most_opened(1 << k, 1 << (k - 1)), Some(1 << (k - 1)));
        }
        assert_eq!(most_opened(5, 1), Some(3));
        assert_eq!(most_opened(5, 2), Some(3));
        assert_eq!(most_opened(5, 3), Some(2));
        for (m, tau) in [(0, 0), (1, 1), (2, 0), (2, 2), (513, 1), (4, u32::MAX)] {
            assert_eq!(most_opened(m, tau), None, "{m} {tau}");
        }
    }

    /// By hand: 70 + 48 + 511 (96 + 12,500 + 32 + 64 + 12,532).
    #[test]
    fn the_longest_of_all() {
        assert_eq!(MAX_PROOF, 12_889_582);
    }

    #[test]
    fn numbers_out_of_their_limits() {
        assert_eq!(longest_proof(K, counts(4, 4, 2)), None);
        assert_eq!(longest_proof(K, counts(4, 1, 3)), None);
        let illegal = [
            Sizes { inputs: 0, ..K },
            Sizes { inputs: 513, ..K },
            Sizes { outputs: 0, ..K },
            Sizes { outputs: 257, ..K },
            Sizes { ands: 2, ..K },
            Sizes {
                ands: u32::MAX,
                gates: u32::MAX,
                ..K
            },
        ];
        for sizes in illegal {
            assert_eq!(longest_proof(sizes, counts(4, 1, 2)), None, "{sizes:?}");
        }
    }
}
