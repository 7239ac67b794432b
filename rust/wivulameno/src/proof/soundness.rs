//! Formula (1) of Katz, Kolesnikov and Wang (2018): the soundness error.

/// Soundness in bits, the binary logarithm of 1/ε(M, n, τ). Needs τ below M.
///
/// A cheating prover who makes k of the M preprocessings right passes with
/// probability C(k, M − τ) / (C(M, M − τ) · n^(k − M + τ)), for the best k from
/// M − τ to M.
pub(super) fn bits(m: u32, tau: u32, n: u32) -> f64 {
    let log = log_factorials(m);
    let choose = |k: u32| log[k as usize] - log[(m - tau) as usize] - log[(k + tau - m) as usize];
    let passes = |k: u32| choose(k) - choose(m) - f64::from(k + tau - m) * f64::from(n).log2();
    -(m - tau..=m).map(passes).fold(f64::NEG_INFINITY, f64::max)
}

/// The binary logarithms of 0! to m!.
fn log_factorials(m: u32) -> Vec<f64> {
    let mut log = vec![0.0];
    for k in 1..=m {
        log.push(log[log.len() - 1] + f64::from(k).log2());
    }
    log
}

#[cfg(test)]
mod tests {
    use super::*;

    /// n, M and τ.
    type Row = (u32, u32, u32);

    /// Table 1 of the paper, for 128 and for 256 bits.
    const TABLE: [(f64, [Row; 6]); 2] = [
        (
            128.0,
            [
                (4, 218, 65),
                (8, 252, 44),
                (16, 352, 33),
                (32, 462, 27),
                (64, 631, 23),
                (128, 916, 20),
            ],
        ),
        (
            256.0,
            [
                (4, 456, 129),
                (8, 533, 87),
                (16, 781, 65),
                (32, 1024, 53),
                (64, 1662, 44),
                (128, 2540, 38),
            ],
        ),
    ];

    /// Each M of the table is the least one for its τ and n.
    #[test]
    fn the_papers_table() {
        for (goal, rows) in TABLE {
            for (n, m, tau) in rows {
                assert!(bits(m, tau, n) >= goal, "{m} {tau} {n}");
                assert!(bits(m - 1, tau, n) < goal, "{m} {tau} {n}");
            }
        }
    }

    /// By hand: M = 2, τ = 1 has k = 1 with 1/2 and k = 2 with 1/n; M = 4, τ = 2,
    /// n = 4 has 1/6, 3/24 and 1/16 for k = 2, 3, 4.
    #[test]
    fn small_cases() {
        for n in [2, 4, 16] {
            assert!((bits(2, 1, n) - 1.0).abs() < 1e-9, "{n}");
        }
        assert!((bits(4, 2, 4) - 6_f64.log2()).abs() < 1e-9);
        let last = bits(512, 1, 16);
        assert!((last - 4.0).abs() < 1e-9, "k = M decides: {last}");
    }
}
