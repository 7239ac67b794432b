//! Table 2 of Katz, Kolesnikov and Wang (2018), source document 001, beside the library: the
//! prover's time for circuits of 1,000, 10,000 and 100,000 AND gates.
//!
//! The paper's M, for an error of 2^-256, is above the 512 instances of a proof here. So the
//! library makes 512 instances, as large a part of them chosen, and what is compared is the
//! time for each AND gate, party and instance. The paper hashes with SHA-256 and AES-256, on
//! a machine of 2018.

use crate::rows::{best_times, call, cell, nanoseconds_each, print_line, Row};
use std::hint::black_box;
use wivulameno::circuit::sizes;
use wivulameno::proof::{longest_proof, prove, Counts, Statement};
use wivulameno::Work;

const GATES: [u32; 3] = [1_000, 10_000, 100_000];

/// n; M and tau of table 1 for 256 bits; t_total of table 2 in milliseconds, for each
/// number of gates.
const TABLE: [(u32, [u32; 2], [f64; 3]); 4] = [
    (8, [533, 87], [16.0, 190.0, 1886.0]),
    (16, [781, 65], [28.0, 250.0, 2408.0]),
    (32, [1024, 53], [51.0, 420.0, 4015.0]),
    (64, [1662, 44], [128.0, 851.0, 7865.0]),
];

const INSTANCES: u32 = 512;
const ROUNDS: usize = 3;

/// Each gate is an AND of the last two wires; the output is the last one, 1 for ones.
pub fn ands(gates: u32) -> Vec<u8> {
    let inputs = 128;
    let mut words = vec![inputs, 1, gates, 1, inputs + gates - 1];
    for k in 0..gates {
        words.extend([2, inputs + k - 2, inputs + k - 1, (k + 2) % (gates + 1)]);
    }
    words.into_iter().flat_map(u32::to_le_bytes).collect()
}

/// As large a part of the instances as the paper's tau is of its M.
fn counts(n: u32, [m, tau]: [u32; 2]) -> Counts {
    Counts {
        m: INSTANCES,
        tau: (tau * INSTANCES + m / 2) / m,
        n,
    }
}

fn row(circuit: &[u8], counts: Counts) -> Row<'_> {
    let sizes = sizes(circuit).expect("a legal circuit");
    let mut work = Work::for_sizes(sizes);
    let room = longest_proof(sizes, counts).expect("legal counts");
    let ours = call(room, move |out| {
        let statement = Statement {
            circuit: black_box(circuit),
            y: &[1],
            message: b"",
        };
        let (root, salt) = (&[0x5a; 16], &[0xa5; 32]);
        prove(statement, &[0xff; 16], root, salt, counts, out, &mut work).expect("no refusal");
    });
    Row {
        name: format!("{} AND gates, n {}", sizes.ands, counts.n),
        amount: (sizes.ands * counts.n * counts.m) as usize,
        batch: 1,
        calls: [Some(ours), None, None],
    }
}

pub fn print() {
    println!(
        "prove beside table 2 of Katz, Kolesnikov and Wang (2018): ms of the paper for its M;"
    );
    println!("ns for each AND gate, party and instance, ours with M {INSTANCES}, best of {ROUNDS} rounds");
    let head = [
        "paper, M",
        "paper, ms",
        "paper, ns",
        "ours, ns",
        "ours/paper",
    ];
    print_line("", &head.map(String::from));
    let circuits = GATES.map(ands);
    for (n, published, times) in TABLE {
        let rows = circuits
            .iter()
            .map(|circuit| row(circuit, counts(n, published)));
        let mut rows: Vec<Row> = rows.collect();
        let best = best_times(ROUNDS, &mut rows);
        for (((row, best), paper), gates) in rows.iter().zip(best).zip(times).zip(GATES) {
            let amount = f64::from(gates) * f64::from(n) * f64::from(published[0]);
            let paper_each = nanoseconds_each(paper / 1e3, amount);
            let ours = best[0].map(|ours| nanoseconds_each(ours, row.amount as f64));
            let ratio = ours.map(|ours| ours / paper_each);
            let cells = [
                published[0].to_string(),
                cell(Some(paper), 0),
                cell(Some(paper_each), 2),
                cell(ours, 2),
                cell(ratio, 2),
            ];
            print_line(&row.name, &cells);
        }
    }
    println!();
}

#[cfg(test)]
mod tests {
    use super::*;

    /// By hand: 16 ms over 1,000 gates, 8 parties and 533 instances are 3.75 ns; 44 of 1,662
    /// are as much as 13.55 of 512.
    #[test]
    fn what_is_compared() {
        let (n, published, times) = TABLE[0];
        let amount = 1_000.0 * f64::from(n) * f64::from(published[0]);
        assert!((nanoseconds_each(times[0] / 1e3, amount) - 3.752).abs() < 0.001);
        let taus = TABLE.map(|(n, published, _)| counts(n, published).tau);
        assert_eq!(taus, [84, 43, 27, 14]);
    }

    #[test]
    fn circuits_of_ands() {
        for gates in GATES {
            let circuit = ands(gates);
            let sizes = sizes(&circuit).expect("a legal circuit");
            assert_eq!((sizes.gates, sizes.ands), (gates, gates));
            let mut y = [0];
            let answer = wivulameno::circuit::evaluate(&circuit, &[0xff; 16], &mut y);
            assert_eq!((answer, y), (Ok(()), [1]));
        }
    }
}
