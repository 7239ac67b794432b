//! Hashes and seed trees, SHAKE128 of the inputs of tapes, showings and whole proofs give
//! the bytes whose digests are stored here: no text of the permutation may change
//! them. A digest is SHA3-256, by the second implementation, of all bytes of a kind,
//! or of one proof.

use reference::bits::clear_rest;
use reference::circuit::Sizes;
use reference::fips202;
use tests::calls::used_bits;
use tests::circuits::{File, Gate, AND, INV, K, XOR};
use tests::proofs::H_STAR;
use wivulameno::mpc::{show, ShowingOut};
use wivulameno::proof::{prove, Counts, Statement};
use wivulameno::{seeds, Work};

const LENGTHS: [usize; 8] = [0, 1, 135, 136, 168, 1000, 65_536, 100_003];
const COUNTS: [u32; 4] = [2, 4, 8, 16];
const WIDE_COUNTS: [u32; 2] = [32, 64];
const INSTANCES: [u32; 4] = [0, 1, 511, 65_535];

const LEAVES: &str = "e72875a040c9c35dcd3f92ba66d50fe86d12f31a1c32ea078aeeebb00dc7265c";
const SHOWINGS: &str = "831026084b6def0e65b5bfad63de3e481d3628dadb66190b7876ae36e6a77fab";
const WIDE_LEAVES: &str = "a24df9744090e2277f4083e07a75cdc2f59404c0b5919723cf2524b67b0cae75";
const WIDE_SIBLINGS: &str = "cdd5043b0615f615ab1fded71c0148df1a7f3f8ef6edd48bb62cf95f37fb5963";
const WIDE_SHOWINGS: &str = "0a04235b737dbc6ecf09489caf2f028ce4d4000e56fd7fb2b6e41c32329655ec";
const SHA3_256: &str = "2167af0717789b81d8816abdc091d3190c685f3d35914de943589863de34fac4";
const SHAKE128: &str = "b7b0c6b34eb9f0145c77d98b6b5645cd87d25f2f9a96283e6740a00d1a1210b5";
const SHAKE256: &str = "03ae66383f71c1be05ca3ef69e266943b271fc0dbe24f995e918ae4586dadf7e";
const TAPES: &str = "8fde7f1ed5564ad6f4f85d7c30e4262fb739fb311219d4131fd84f77737b7534";
const SIBLINGS: &str = "944ef33c4eb49952bbb7471bab8fb83f480aff3daccc4a10fea96ca14c52c454";

/// Fixed bytes: the same for a length in every run.
fn bytes(len: usize) -> Vec<u8> {
    let byte = |k: usize| (k * k * 31 + k * 7 + len) as u8;
    (0..len).map(byte).collect()
}

/// The digest of all bytes, in hexadecimal.
fn digest(all: &[u8]) -> String {
    hex(&fips202::sha3_256(all))
}

fn hex(bytes: &[u8]) -> String {
    bytes.iter().map(|byte| format!("{byte:02x}")).collect()
}

/// The outputs of an extendable-output function, for each pair of lengths.
fn outputs(xof: fn(&[u8], &mut [u8])) -> Vec<u8> {
    let mut all = vec![];
    for len in LENGTHS {
        for out_len in LENGTHS {
            let mut out = vec![0; out_len];
            xof(&bytes(len), &mut out);
            all.extend(out);
        }
    }
    all
}

#[test]
fn sha3_256() {
    let of_length = |len| wivulameno::sha3_256(&bytes(len));
    let all: Vec<u8> = LENGTHS.into_iter().flat_map(of_length).collect();
    assert_eq!(digest(&all), SHA3_256);
}

#[test]
fn shake128() {
    let all = outputs(wivulameno::shake128);
    assert_eq!(digest(&all), SHAKE128);
}

#[test]
fn shake256() {
    let all = outputs(wivulameno::shake256);
    assert_eq!(digest(&all), SHAKE256);
}

/// The leaves of expanded trees.
#[test]
fn expanded_trees() {
    for (counts, stored) in [(&COUNTS[..], LEAVES), (&WIDE_COUNTS, WIDE_LEAVES)] {
        assert_eq!(digest(&leaves_of(counts)), stored);
    }
}

fn leaves_of(counts: &[u32]) -> Vec<u8> {
    let mut all = vec![];
    for j in INSTANCES {
        for &n in counts {
            let mut leaves = vec![0; 16 * n as usize];
            seeds::expand(j, n, &SALT, &bytes(16), &mut leaves).expect("leaves");
            all.extend(leaves);
        }
    }
    all
}

/// The siblings of each hidden leaf.
#[test]
fn opened_trees() {
    for (counts, stored) in [(&COUNTS[..], SIBLINGS), (&WIDE_COUNTS, WIDE_SIBLINGS)] {
        assert_eq!(digest(&siblings_of(counts)), stored);
    }
}

fn siblings_of(counts: &[u32]) -> Vec<u8> {
    let mut all = vec![];
    for j in INSTANCES {
        for &n in counts {
            for p in 0..n {
                let mut siblings = vec![0; 16 * n.ilog2() as usize];
                seeds::open(j, n, p, &SALT, &bytes(16), &mut siblings).expect("siblings");
                all.extend(siblings);
            }
        }
    }
    all
}

/// SHAKE128 of the inputs of tape rows, 4, salt, j, i, seed, to 1,088 bytes.
#[test]
fn tapes() {
    let mut all = vec![];
    for j in INSTANCES {
        for i in 0..16 {
            let [low, high, ..] = j.to_le_bytes();
            let input = [&[4], &SALT[..], &[low, high, i], &bytes(16)].concat();
            let mut row = vec![0; (512 + 2 * 4096) / 8];
            wivulameno::shake128(&input, &mut row);
            all.extend(row);
        }
    }
    assert_eq!(digest(&all), TAPES);
}

/// The circuit with its witness and output, M, tau, n, the proof's h*, and the digest of
/// the whole proof, in the layout of orders 5 and 10 and with the circuit files of order 7.
/// The proofs were made in Python over its hashlib, by a prover that gave the digests of
/// proofs without a salt too. A request that moves the bytes of proofs replaces them. Order
/// 13, "16 parties give the same bytes", leans on those of up to 16 parties.
const PROOFS: [(Circuit, [u32; 3], &str, &str); 12] = [
    (
        adder,
        [2, 1, 2],
        "59ebb9336eba6604f29f5e47962bfd331530f918f800e726d50626316472694a",
        "71d79c67df08a4c55adb06051b5812275b01d12ba75ad99acad5639e49991851",
    ),
    (
        adder,
        [40, 13, 4],
        "2606c435d716358d15238371714c72b17fd034009eabd2923fb8beeed478bc93",
        "278102e76db94622e9983083aed281e4b68c227ceb991602a5b3b5fdae963d05",
    ),
    (
        adder,
        [145, 66, 8],
        "8fcb9a66703e45a1ac56b1a2da9d9056506b5ef96dd30e5f1134576167994780",
        "96f67bd8e42770aa6602fc24225a39f3944abdccd71812f4a9fcac4f2a387f39",
    ),
    (
        adder,
        [343, 27, 16],
        "f6cf44f288eb54208a257a4547b0ca7a93b2a6846d7822b4260eb9a4aa756dcc",
        "5f02b2572e9b49b784a9867fec574871c3a7398c47bc2fde6d72e4340853eff6",
    ),
    (
        ladder,
        [64, 36, 2],
        "d5cd2382b0ba93a076ed3e91de783a5f2e6aa955c5e9c1c01e24600c200c8e2a",
        "e1c0778c8b0e9205e2979551f1e5aa61d0fcfbe9af19855adcbe09e178019dca",
    ),
    (
        ladder,
        [17, 5, 4],
        "d6fb7a677f53ca612c4e9f5147b6786042f71fcfefb808b2f2da0bb05e62fbc2",
        "7e8f05e1833bf1e675644aa7cea122a1eaa7343137a56ff7e73af12663f339df",
    ),
    (
        ladder,
        [252, 44, 8],
        "be6d8599f03fe2a10124c86cce46864f65f3e75030d1f5c03e14ff5ed19dff90",
        "86d0b239e1ffea37b7d4122382d7d9593ee193d126986c9992f14d62be3bc05b",
    ),
    (
        ladder,
        [47, 17, 16],
        "f8a3eaaad590649380e551d1f667479b47c316428d68626c1fcd252a0b094a7f",
        "fc565da9403828cf5283882e3d6776db65fe153263c0a31bfc5c61fb0ba2d3a6",
    ),
    (
        adder,
        [145, 66, 32],
        "bcaabaeb93b5b94be48386b691d73b2e25a8bbe6557adeba63b249a3100bbab2",
        "59b2090b8696b177254cebee80d338b48392113799bdb4988f5c53e5e8f0a179",
    ),
    (
        adder,
        [5, 2, 64],
        "7dd6aea9e70d497beff8cdeedcf56c618e05c23cddcba58d8a1e14320edbfad9",
        "acd0082dc0f30e0c80906b62634558f0c370518367454a14d46b90cc800527ca",
    ),
    (
        ladder,
        [17, 5, 32],
        "eae4570fe94db0c1ef40933d2011b43c1d8a835cf2a07a280ccb7326ce431406",
        "6fd7ee90ff8ef61e800a83ccf475ca1a9d10221f1f2a372d73142d220c72a2ef",
    ),
    (
        ladder,
        [12, 4, 64],
        "95257fce7ceee74bd4540f33bf498d974282e3ff86a958216779c15d836f0c0d",
        "2885262f27f90039f126206e79dcc0a349593063cbaa5cbc89e836fed832705c",
    ),
];

const ROOT: [u8; 16] = *b"sixteen bytes...";
const SALT: [u8; 32] = *b"thirty-two bytes in every proof.";
const MESSAGE: &[u8] = b"order 17 of depot 4, 2026-03-01.";

/// A circuit file, a witness, and the output for it.
type Circuit = fn() -> (Vec<u8>, Vec<u8>, Vec<u8>);

/// The file of gates, each a kind and two wires, in the order of their slots.
fn file(inputs: u32, outputs: Vec<u32>, gates: Vec<(u32, u32, u32)>) -> Vec<u8> {
    let gate = |&(kind, a, b): &_| Gate {
        kind,
        a,
        b,
        next: 0,
    };
    let mut file = File {
        counts: [inputs, outputs.len() as u32, gates.len() as u32],
        head: 0,
        gates: gates.iter().map(gate).collect(),
        outputs,
    };
    file.link(&(1..=gates.len()).collect::<Vec<_>>());
    file.bytes()
}

/// The sum and the carry of three bits, which are 1, 0 and 1, and the sum inverted.
fn adder() -> (Vec<u8>, Vec<u8>, Vec<u8>) {
    let gates = vec![
        (XOR, 0, 1),
        (AND, 0, 1),
        (XOR, 3, 2),
        (AND, 3, 2),
        (XOR, 4, 6),
        (INV, 5, 0),
    ];
    (file(3, vec![5, 7, 8], gates), vec![0b101], vec![0b110])
}

/// 600 gates above 64 inputs, the k-th of wires k and k + 37, XOR but for every third,
/// which is AND. The outputs are the last 16 wires.
fn ladder() -> (Vec<u8>, Vec<u8>, Vec<u8>) {
    let gate = |k: u32| (if k % 3 == 2 { AND } else { XOR }, k, k + 37);
    let circuit = file(64, (648..664).collect(), (0..600).map(gate).collect());
    (
        circuit,
        (0..8).map(|k| 255 - 16 * k).collect(),
        vec![18, 68],
    )
}

#[test]
fn proofs() {
    for (circuit, [m, tau, n], h_star, stored) in PROOFS {
        let (circuit, witness, y) = circuit();
        let counts = Counts { m, tau, n };
        let statement = Statement {
            circuit: &circuit,
            y: &y,
            message: MESSAGE,
        };
        let mut proof = vec![0; 1 << 16];
        let mut work = Work::for_circuit(&circuit).expect("a circuit");
        let out = &mut proof;
        let len = prove(statement, &witness, &ROOT, &SALT, counts, out, &mut work);
        let len = len.expect("a proof");
        assert_eq!(hex(&proof[H_STAR]), h_star, "{counts:?}");
        assert_eq!(digest(&proof[..len]), stored, "{counts:?}");
    }
}

/// A proof of K, M 4, tau 1, n 2, byte by byte, from the same prover in Python.
const PROOF_OF_K: [&str; 12] = [
    "040001000200",                                                     // M, tau, n, 0
    "3f6225c38fb1bf97b67ac704463de2b39928da80c1ff5f4e98dc8147705b7dc1", // h*
    "7468697274792d74776f20627974657320696e2065766572792070726f6f662e", // the salt
    "e2df42138569704e3f62d312b4936f7dfca372d15c3437f7adfd2339be68494d", // two nodes
    "ff6bc95eb31aa39bfa3389e2d006afd5595d6ea7767af02a250d3c0d46a65ae0", // h'_0
    "0fb37c90d444be7d5aa3de1d11928ce0dec54b50a6da599997d6da62f22871bc", // h'_1
    "c13e82f3c3de7a41ed58c4203f050c29", // instance 2, which hides party 0: a sibling
    "00",                               // the corrections
    "fa5218183ef5a1875459755e66f3ca4de6038d3c7925ba72bdb69e4c158ae8c2", // the commitment
    "00",                               // the masked inputs
    "01",                               // the row
    "f7fa3405169e3cc11ac4ccefba7aeec00e6ad9e237799519b96778f164419bfb", // h'_3
];

#[test]
fn a_proof_byte_by_byte() {
    let counts = Counts { m: 4, tau: 1, n: 2 };
    let statement = Statement {
        circuit: &K,
        y: &[1],
        message: MESSAGE,
    };
    let mut proof = [0; 265];
    let mut work = Work::for_circuit(&K).expect("a circuit");
    let out = &mut proof;
    let len = prove(statement, &[3], &ROOT, &SALT, counts, out, &mut work);
    assert_eq!(hex(&proof[..len.expect("a proof")]), PROOF_OF_K.concat());
    assert_eq!(
        wivulameno::proof::check(statement, &proof[..len.unwrap()], &mut work),
        Ok(())
    );
}

/// Showings start at the tapes and know no salt: each hidden party, cut after no gate,
/// after half of the gates and after all. The digest is from Python too.
#[test]
fn showings() {
    for (counts, stored) in [(&COUNTS[..], SHOWINGS), (&WIDE_COUNTS, WIDE_SHOWINGS)] {
        assert_eq!(digest(&showings_of(counts)), stored);
    }
}

fn showings_of(counts: &[u32]) -> Vec<u8> {
    let mut all = vec![];
    for circuit in [adder, ladder] {
        let (circuit, witness, _) = circuit();
        let sizes = reference::circuit::read(&circuit).expect("a circuit");
        for &n in counts {
            let tapes = tapes_of(sizes, n);
            for p in 0..n {
                for cut in [0, sizes.gates / 2, sizes.gates] {
                    all.extend(showing(&circuit, [n, p, cut as u32], &witness, &tapes));
                }
            }
        }
    }
    all
}

/// Fixed tapes, their unused bits zero.
fn tapes_of(sizes: Sizes, n: u32) -> Vec<u8> {
    let mut tapes = bytes(n as usize * sizes.tape_row_len());
    for (i, row) in tapes.chunks_mut(sizes.tape_row_len()).enumerate() {
        clear_rest(row, used_bits(sizes, n, i));
    }
    tapes
}

/// The four parts of a showing, one after the other. The numbers are n, p and the cut.
fn showing(circuit: &[u8], [n, p, cut]: [u32; 3], witness: &[u8], tapes: &[u8]) -> Vec<u8> {
    let sizes = reference::circuit::read(circuit).expect("a circuit");
    let mut shown = vec![0; tapes.len()];
    let mut corrections = vec![0; sizes.corrections_len()];
    let mut masked_inputs = vec![0; sizes.inputs_len()];
    let mut row = vec![0; sizes.row_len()];
    let out = ShowingOut {
        tapes: &mut shown,
        corrections: &mut corrections,
        masked_inputs: &mut masked_inputs,
        row: &mut row,
    };
    let mut work = Work::for_circuit(circuit).expect("a circuit");
    show(circuit, n, p, cut, witness, tapes, out, &mut work).expect("a showing");
    [shown, corrections, masked_inputs, row].concat()
}
