//! The library and the reference prove alike, byte for byte, and accept what
//! they prove: on random circuits, for every n, and for M, tau, messages and
//! buffers at the ends of their limits and between.

use reference::masters::{hidden_among, opened_nodes};
use tests::calls::{Setting, COUNTS};
use tests::circuits::{any_slots, legal, File, AND, XOR};
use tests::proofs::{compare_check, compare_prove, longest, Prove, HEADER, H_STAR, SALT};
use tests::random::Random;
use tests::works;
use wivulameno::circuit::sizes;
use wivulameno::proof::{longest_proof, most_opened, proof_len, Counts};
use wivulameno::seeds::{challenge, cover, ChallengeInput};
use wivulameno::Work;

const SETTINGS: usize = 120;

/// Proves with buffers of the least length and of a larger one, and checks.
fn compare(random: &mut Random, setting: &Setting, counts: [u32; 2], message: usize) -> Vec<u8> {
    let mut call = Prove::of(random, setting, counts, message);
    let proof = compare_prove(random, &call).expect("proved");
    compare_lengths(&call, &proof);
    if random.once_in(3) {
        call.proof_len += random.pick(&[1, 2, 7, 48, 1000]);
        let again = compare_prove(random, &call);
        assert!(again == Ok(proof.clone()), "{}", call.shown());
    }
    let answer = compare_check(random, &call.check(&proof));
    assert_eq!(answer, Ok(()), "{}", call.shown());
    proof
}

/// The library's crate tells the same counts, and the same lengths before and
/// after the challenge.
fn compare_lengths(call: &Prove, proof: &[u8]) {
    let [m, tau, n] = call.counts;
    let counts = Counts { m, tau, n };
    assert_eq!(Counts::of_proof(proof), Some(counts), "{}", call.shown());
    assert_eq!(proof[SALT], call.salt, "{}", call.shown());
    let sizes = sizes(&call.circuit).expect("a legal circuit");
    let longest = longest_proof(sizes, counts);
    assert_eq!(longest, Some(call.proof_len), "{}", call.shown());
    let mut chosen = vec![0; 3 * tau as usize];
    let input = ChallengeInput {
        h_star: &proof[H_STAR],
        salt: &proof[SALT],
        circuit_digest: &wivulameno::sha3_256(&call.circuit),
        y: &call.y,
        message: &call.message,
    };
    let drawn = challenge(m, tau, n, input, &mut chosen);
    assert_eq!(drawn, Ok(()));
    let is_last = |instance: &&[u8]| u32::from(instance[2]) == n - 1;
    let hiding_last = chosen.chunks(3).filter(is_last).count() as u32;
    let opened = compare_opened(call, &chosen, proof);
    let len = proof_len(sizes, counts, opened, hiding_last);
    assert_eq!(len, Some(proof.len()), "{}", call.shown());
    assert!(Some(opened) <= most_opened(m, tau), "{}", call.shown());
}

/// What follows the header is the library's cover of the chosen instances; how many
/// nodes it has.
fn compare_opened(call: &Prove, chosen: &[u8], proof: &[u8]) -> u32 {
    let m = call.counts[0] as usize;
    let numbers = chosen.chunks(3).map(|instance| &instance[..2]);
    let leaves = numbers.clone().map(|j| u16::from_le_bytes([j[0], j[1]]));
    let leaves: Vec<usize> = leaves.map(usize::from).collect();
    let opened = opened_nodes(&hidden_among(m, &leaves)).len();
    let mut nodes = vec![0; 16 * opened];
    let numbers = numbers.collect::<Vec<_>>().concat();
    let answer = cover(m as u32, &numbers, &call.salt, &call.root, &mut nodes);
    assert_eq!(answer, Ok(()), "{}", call.shown());
    assert!(proof[HEADER..].starts_with(&nodes), "{}", call.shown());
    opened as u32
}

fn a_small_setting(random: &mut Random, n: u32) -> Setting {
    let sizes = [20, 9, 30].map(|most| random.from_to(1, most));
    Setting::of_sizes(random, sizes, n)
}

/// tau at both ends and between.
fn some_taus(random: &mut Random, m: u32) -> [u32; 3] {
    let between = random.from_to(1, m as usize - 1) as u32;
    [1, m - 1, between]
}

#[test]
fn every_n_with_small_m() {
    let mut random = Random::new(71);
    for n in COUNTS {
        for m in 2..=12 {
            for tau in 1..m {
                let setting = a_small_setting(&mut random, n);
                let message = random.below(40);
                compare(&mut random, &setting, [m, tau], message);
            }
        }
    }
}

#[test]
fn every_n_with_large_m() {
    let mut random = Random::new(72);
    for n in COUNTS {
        let instances: &[u32] = match n {
            2..=16 => &[33, 63, 64, 65, 255, 256, 257, 343, 511, 512],
            _ => &[65, 343],
        };
        for &m in instances {
            for tau in some_taus(&mut random, m) {
                let setting = a_small_setting(&mut random, n);
                compare(&mut random, &setting, [m, tau], 20);
            }
        }
    }
}

/// The most instances by the most parties.
#[test]
fn instances_512_by_64_parties() {
    let mut random = Random::new(70);
    let setting = a_small_setting(&mut random, 64);
    compare(&mut random, &setting, [512, 23], 20);
}

#[test]
fn some_m_between() {
    let mut random = Random::new(73);
    for _ in 0..60 {
        let n = random.pick(&[2, 2, 4, 8]);
        let setting = a_small_setting(&mut random, n);
        let m = random.from_to(2, 512);
        let tau = random.from_to(1, m - 1);
        compare(&mut random, &setting, [m as u32, tau as u32], 20);
    }
}

#[test]
fn any_settings() {
    let mut random = Random::new(74);
    for _ in 0..SETTINGS {
        let setting = Setting::any(&mut random);
        let m = random.from_to(2, 9) as u32;
        let [.., tau] = some_taus(&mut random, m);
        let message = random.below(300);
        compare(&mut random, &setting, [m, tau], message);
    }
}

/// Every length about the ends of the challenge's blocks of 136 bytes, of which 104
/// and those of y, 1 or 2, come before the message, and both ends.
#[test]
fn message_lengths() {
    let mut random = Random::new(75);
    let near_rate = (26..=34).chain(162..=170);
    let ends = [0, 1, 2, 255, 256, 257, 2048, 4000, 4095, 4096];
    for message in near_rate.chain(ends) {
        for n in COUNTS {
            let setting = a_small_setting(&mut random, n);
            compare(&mut random, &setting, [6, 2], message);
        }
    }
}

/// The message, the root and the salt each have their part in every proof.
#[test]
fn messages_roots_and_salts_differ() {
    let mut random = Random::new(76);
    let setting = a_small_setting(&mut random, 4);
    let call = Prove::of(&mut random, &setting, [9, 3], 20);
    let proof = compare_prove(&mut random, &call).expect("proved");
    for bit in 0..8 * call.message.len() {
        let mut other = call.clone();
        other.message[bit / 8] ^= 1 << (bit % 8);
        let other = compare_prove(&mut random, &other).expect("proved");
        assert!(
            other[..HEADER] == proof[..HEADER] && other != proof,
            "bit {bit}"
        );
    }
    for bit in 0..128 {
        let mut other = call.clone();
        other.root[bit / 8] ^= 1 << (bit % 8);
        let other = compare_prove(&mut random, &other).expect("proved");
        assert!(other[H_STAR] != proof[H_STAR], "bit {bit}");
    }
    for bit in 0..256 {
        let mut other = call.clone();
        other.salt[bit / 8] ^= 1 << (bit % 8);
        let other = compare_prove(&mut random, &other).expect("proved");
        assert!(other[H_STAR] != proof[H_STAR], "bit {bit}");
    }
}

/// A salt of zeros, of ones, and one whose bytes are all others.
#[test]
fn any_salt_is_good() {
    let mut random = Random::new(80);
    for n in COUNTS {
        let setting = a_small_setting(&mut random, n);
        for salt in [[0; 32], [255; 32], std::array::from_fn(|k| k as u8)] {
            let mut call = Prove::of(&mut random, &setting, [9, 3], 20);
            call.salt = salt.to_vec();
            let proof = compare_prove(&mut random, &call).expect("proved");
            compare_lengths(&call, &proof);
            let answer = compare_check(&mut random, &call.check(&proof));
            assert_eq!(answer, Ok(()), "{}", call.shown());
        }
    }
}

fn all_and(file: &mut File) {
    file.gates.iter_mut().for_each(|gate| gate.kind = AND);
}

fn no_and(file: &mut File) {
    let ands = file.gates.iter_mut().filter(|gate| gate.kind == AND);
    ands.for_each(|gate| gate.kind = XOR);
}

fn as_it_is(_: &mut File) {}

type Change = fn(&mut File);

fn shaped(random: &mut Random, sizes: [usize; 3], change: Change, n: u32) -> Setting {
    let slots = any_slots(random, sizes[2]);
    let mut file = legal(random, sizes, &slots);
    change(&mut file);
    Setting::of(random, file, slots, n)
}

/// The ends of the limits, rows of whole bytes, and no corrections at all.
#[test]
fn special_shapes() {
    let shapes: [([usize; 3], Change); 14] = [
        ([1, 1, 0], as_it_is),
        ([512, 256, 0], as_it_is),
        ([1, 256, 0], as_it_is),
        ([512, 256, 200], as_it_is),
        ([3, 4, 30], no_and),
        ([512, 256, 30], no_and),
        ([8, 8, 8], all_and),
        ([16, 8, 8], all_and),
        ([7, 7, 9], all_and),
        ([1, 1, 1], all_and),
        ([5, 2, 1], all_and),
        ([8, 1, 15], all_and),
        ([8, 255, 17], all_and),
        ([300, 130, 700], all_and),
    ];
    let mut random = Random::new(77);
    for (sizes, change) in shapes {
        for n in COUNTS {
            let setting = shaped(&mut random, sizes, change, n);
            for tau in [1, 4] {
                compare(&mut random, &setting, [5, tau], 20);
            }
        }
    }
}

/// The limits but for the gates, which `wide` has: 512 inputs, 256 outputs, 4,096 AND gates, 512
/// instances by 16 parties, fewer by 2 and by 64, a message of 4,096 bytes.
#[test]
fn the_largest() {
    let mut random = Random::new(78);
    let setting = shaped(&mut random, [512, 256, 4096], all_and, 16);
    assert_eq!(setting.sizes.ands, 4096);
    for (m, tau) in [(2, 1), (512, 30)] {
        let proof = compare(&mut random, &setting, [m, tau], 4096);
        assert!(proof.len() <= longest(setting.sizes, [m, tau, 16]));
    }
    for n in [2, 64] {
        let other = shaped(&mut random, [512, 256, 4096], all_and, n);
        compare(&mut random, &other, [12, 11], 4096);
    }
}

/// A circuit of the example folder, proved and checked as a depot would.
#[test]
fn an_example() {
    let mut random = Random::new(79);
    let circuit = include_bytes!("../../../examples/covers32.circuit");
    let witness = include_bytes!("../../../examples/covers32.row");
    let sizes = reference::circuit::read(circuit).expect("a legal circuit");
    let counts = [128, 32, 8];
    let call = Prove {
        circuit: circuit.to_vec(),
        witness: witness.to_vec(),
        // Covered, and the order of 2,999,999,999.
        y: vec![0xff, 0xbb, 0xa0, 0x65, 0x01],
        message: b"order 17".to_vec(),
        root: random.bytes(16),
        salt: random.bytes(32),
        counts,
        proof_len: longest(sizes, counts),
        work_len: works::least(circuit),
    };
    let proof = compare_prove(&mut random, &call).expect("proved");
    let answer = compare_check(&mut random, &call.check(&proof));
    assert_eq!(answer, Ok(()));

    let statement = wivulameno::proof::Statement {
        circuit,
        y: &call.y,
        message: &call.message,
    };
    let [m, tau, n] = counts;
    let counts = Counts { m, tau, n };
    let mut again = vec![0; call.proof_len];
    let mut work = Work::for_circuit(circuit).expect("a circuit");
    let (root, salt, out) = (&call.root, &call.salt, &mut again);
    let len = wivulameno::proof::prove(statement, witness, root, salt, counts, out, &mut work);
    assert!(len == Ok(proof.len()) && again[..proof.len()] == proof);
}
