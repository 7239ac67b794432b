//! The hash calls of one prove or check, by their lengths, to be made alone.

use crate::openssl::OpenSsl;
use crate::rows::{call, Call};
use reference::circuit::Sizes;
use reference::fips202;
use reference::proof::{header, hidden_parties, Counts, Statement};
use std::hint::black_box;

#[derive(Clone, Copy)]
enum Function {
    Sha3,
    Shake128,
    Shake256,
}

use Function::*;

/// Calls of one function with these lengths of input and output.
#[derive(Clone, Copy)]
pub struct Hashes {
    function: Function,
    input: usize,
    output: usize,
    times: usize,
}

fn hashes(function: Function, input: usize, output: usize, times: usize) -> Hashes {
    Hashes {
        function,
        input,
        output,
        times,
    }
}

/// The inputs of a node: the tag, the salt, j, k and a value; of a leaf or a tape: the
/// tag, the salt, j, i and a value. A commitment has another value, r, behind that.
const NODE: usize = 1 + 32 + 2 + 2 + 16;
const LEAF: usize = 1 + 32 + 2 + 1 + 16;

/// The hash calls for `leaves` opened leaves in all, of which `last` are those
/// of the last party, below `nodes` nodes: seeds, tapes and commitments.
fn of_leaves(sizes: Sizes, nodes: usize, leaves: usize, last: usize) -> [Hashes; 5] {
    [
        hashes(Shake128, NODE, 32, nodes),
        hashes(Shake128, LEAF, 32, leaves),
        hashes(Shake128, LEAF, sizes.tape_row_len(), leaves),
        hashes(Sha3, LEAF + 16, 32, leaves - last),
        hashes(Sha3, LEAF + 16 + sizes.corrections_len(), 32, last),
    ]
}

/// The digests: h_j of all instances, h'_j of some, the circuit's, and the
/// challenge.
fn of_digests(
    sizes: Sizes,
    counts: Counts,
    statement: Statement,
    broadcasts: usize,
) -> [Hashes; 6] {
    let [m, tau, n] = [counts.m, counts.tau, counts.n].map(|count| count as usize);
    let rows = sizes.inputs_len() + n * sizes.row_len();
    let Statement {
        circuit,
        y,
        message,
    } = statement;
    // The tag, h*, the salt, M, tau, n, the circuit's digest, y, the message and its length.
    let challenge = 1 + 32 + 32 + 2 + 2 + 1 + 32 + y.len() + 2 + message.len();
    [
        hashes(Sha3, 3 + 32 * n, 32, m),
        hashes(Sha3, 3 + rows, 32, broadcasts),
        hashes(Sha3, 1 + 32 * m, 32, 2),
        hashes(Sha3, 1 + 64, 32, 1),
        hashes(Sha3, circuit.len(), 32, 1),
        hashes(Shake256, challenge, 9 * tau, 1),
    ]
}

/// The nodes of the masters' tree that a prover hashes: all inner ones, those above
/// spare leaves alone too.
fn nodes_grown(m: usize) -> usize {
    m.next_power_of_two() - 1
}

/// The nodes of the masters' tree that a check hashes: the inner ones that have an
/// unhidden leaf and no hidden leaf below them. Spare leaves are neither.
fn nodes_regrown(hidden: &[bool]) -> usize {
    let leaves = hidden.len().next_power_of_two();
    let is_hashed = |k: &usize| {
        let width = leaves >> k.ilog2();
        let mut below = hidden.iter().skip(k * width - leaves).take(width);
        below.len() > 0 && below.all(|hidden| !hidden)
    };
    (1..leaves).filter(is_hashed).count()
}

/// What a prover hashes, each input once.
pub fn of_prove(sizes: Sizes, counts: Counts, statement: Statement) -> Vec<Hashes> {
    let [m, n] = [counts.m, counts.n].map(|count| count as usize);
    let masters = [hashes(Shake128, NODE, 32, nodes_grown(m))];
    let leaves = of_leaves(sizes, m * (n - 1), m * n, m);
    let digests = of_digests(sizes, counts, statement, m);
    [&masters[..], &leaves, &digests].concat()
}

/// What the check of this proof hashes, each input once.
pub fn of_check(sizes: Sizes, statement: Statement, proof: &[u8]) -> Vec<Hashes> {
    let header = header(proof).expect("a header");
    let counts = header.counts;
    let [m, tau, n] = [counts.m, counts.tau, counts.n].map(|count| count as usize);
    let hidden = hidden_parties(statement, header);
    let chosen: Vec<bool> = hidden.iter().map(Option::is_some).collect();
    let masters = [hashes(Shake128, NODE, 32, nodes_regrown(&chosen))];
    let hidden = hidden.into_iter().flatten();
    let last_hidden = hidden.filter(|&p| usize::from(p) == n - 1).count();
    // The nodes on the way to a hidden leaf are not known.
    let nodes = m * (n - 1) - tau * n.ilog2() as usize;
    let leaves = of_leaves(sizes, nodes, m * n - tau, m - last_hidden);
    let digests = of_digests(sizes, counts, statement, tau);
    [&masters[..], &leaves, &digests].concat()
}

/// The hash calls alone, by OpenSSL or else by the second implementation.
fn hash_all(openssl: Option<&OpenSsl>, all: &[Hashes], input: &[u8], output: &mut [u8]) {
    for hashes in all {
        let (input, output) = (&input[..hashes.input], &mut output[..hashes.output]);
        for _ in 0..hashes.times {
            let input = black_box(input);
            match (openssl, hashes.function) {
                (Some(o), Sha3) => output.copy_from_slice(&o.sha3_256(input)),
                (Some(o), Shake128) => o.shake128(input, output),
                (Some(o), Shake256) => o.shake256(input, output),
                (None, Sha3) => output.copy_from_slice(&fips202::sha3_256(input)),
                (None, Shake128) => fips202::shake128(input, output),
                (None, Shake256) => fips202::shake256(input, output),
            }
        }
    }
}

pub fn call_of(openssl: Option<&OpenSsl>, all: Vec<Hashes>) -> Call<'_> {
    let longest = |len: fn(&Hashes) -> usize| all.iter().map(len).max().unwrap_or(0);
    let input = vec![0x5a; longest(|hashes| hashes.input)];
    call(longest(|hashes| hashes.output), move |out| {
        hash_all(openssl, &all, &input, out)
    })
}

#[cfg(test)]
mod tests {
    use super::*;
    use reference::masters::hidden_among;
    use reference::proof::{longest, prove};
    use reference::work::work_len;

    /// One AND of two inputs.
    const K: [u8; 36] = [
        2, 0, 0, 0, 1, 0, 0, 0, 1, 0, 0, 0, 1, 0, 0, 0, // I, O, G, head
        2, 0, 0, 0, // the output
        2, 0, 0, 0, 0, 0, 0, 0, 1, 0, 0, 0, 0, 0, 0, 0, // slot 1
    ];

    const STATEMENT: Statement = Statement {
        circuit: &K,
        y: &[1],
        message: b"order",
    };

    /// What the prover hashes in a proof of four instances, one of them chosen, by
    /// two parties, and what the check of that proof hashes.
    fn small_proof() -> [Vec<Hashes>; 2] {
        let sizes = reference::circuit::read(&K).unwrap();
        let counts = Counts { m: 4, tau: 1, n: 2 };
        let mut proof = vec![0; longest(sizes, counts)];
        let mut work = vec![0; work_len(sizes)];
        let (root, salt, out) = ([7; 16], [9; 32], &mut proof);
        let len = prove(STATEMENT, &[3], &root, &salt, counts, out, &mut work);
        [
            of_prove(sizes, counts, STATEMENT),
            of_check(sizes, STATEMENT, &proof[..len.unwrap()]),
        ]
    }

    /// The masters' tree of 3 inner nodes, of which a check hashes one; 4 trees of one
    /// node and 8 leaves, of which a check has 3 trees and 7 leaves; h_j and h'_j; h, h',
    /// h*, the circuit's digest and the challenge.
    #[test]
    fn calls_of_a_small_proof() {
        let times = |all: &Vec<Hashes>| all.iter().map(|hashes| hashes.times).sum::<usize>();
        let [prover, checker] = small_proof().each_ref().map(times);
        assert_eq!(prover, 3 + 4 + 3 * 8 + 4 + 4 + 5);
        assert_eq!(checker, 1 + 3 + 3 * 7 + 4 + 1 + 5);
    }

    /// By hand: five masters are nodes 8 to 12 of a tree of eight leaves, and node 7 has
    /// only spare ones.
    #[test]
    fn nodes_that_are_hashed() {
        assert_eq!(
            [2, 4, 5, 8, 343, 512].map(nodes_grown),
            [1, 3, 7, 7, 511, 511]
        );
        let of = |leaves: &[usize]| nodes_regrown(&hidden_among(5, leaves));
        // Nodes 3, 4 and 6; nodes 2, 4 and 5; nodes 3 and 6.
        assert_eq!([of(&[2]), of(&[4]), of(&[0, 3])], [3, 3, 2]);
        assert_eq!([of(&[0, 2, 4]), of(&[0, 1, 2, 3, 4])], [0, 0]);
    }

    /// The circuit file has 36 bytes. The challenge's input has 104, and those of y
    /// and of the message; 9 bytes choose an instance and its party.
    #[test]
    fn both_hash_the_circuit_and_the_statement_once() {
        for all in small_proof() {
            let of = |is_it: fn(&Hashes) -> bool| {
                let found = all.iter().copied().filter(is_it);
                let lens = found.map(|hashes| (hashes.input, hashes.output, hashes.times));
                lens.collect::<Vec<_>>()
            };
            let circuit = of(|hashes| matches!(hashes.function, Sha3) && hashes.input == 36);
            assert_eq!(circuit, [(36, 32, 1)]);
            let challenge = of(|hashes| matches!(hashes.function, Shake256));
            assert_eq!(challenge, [(104 + 1 + 5, 9, 1)]);
        }
    }
}
