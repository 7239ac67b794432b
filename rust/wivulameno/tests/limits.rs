//! The limits are the library's: what is at a limit is accepted, what is beyond
//! it is refused. And a proof has the length that is foretold.

use wivulameno::circuit::{read, sizes, upgrade, upgrade_to_vec, Sizes};
use wivulameno::limits::*;
use wivulameno::proof::{check, longest_proof, most_opened, proof_len, prove};
use wivulameno::proof::{Counts, Places, SharedChecker, Statement};
use wivulameno::seeds::{challenge, cover, expand, masters, open, ChallengeInput};
use wivulameno::{sha3_256, shelf, Refusal, Work};

const SALT: [u8; SALT_LEN] = [0x5a; SALT_LEN];

/// A circuit whose gates are INV, one after the other from wire 0; all outputs
/// are wire 0.
fn circuit(inputs: u32, outputs: u32, gates: u32) -> Vec<u8> {
    let mut words = vec![inputs, outputs, gates, gates.min(1)];
    words.extend(vec![0; outputs as usize]);
    for slot in 1..=gates {
        let read = if slot == 1 { 0 } else { inputs + slot - 2 };
        words.extend([3, read, 0, (slot + 1) % (gates + 1)]);
    }
    words.iter().flat_map(|word| word.to_le_bytes()).collect()
}

#[test]
fn of_circuits() {
    let largest = circuit(MAX_INPUTS, MAX_OUTPUTS, MAX_GATES);
    assert_eq!((largest.len(), MAX_CIRCUIT), (1_601_040, 1_601_040));
    let expected = Sizes {
        inputs: MAX_INPUTS,
        outputs: MAX_OUTPUTS,
        gates: MAX_GATES,
        ands: 0,
    };
    assert_eq!(sizes(&largest), Ok(expected));
    assert_eq!((expected.witness_len(), expected.y_len()), (64, 32));
    assert_eq!((expected.circuit_len(), MAX_WORK), (1_601_040, 6_436_864));
    let beyond = [
        circuit(MAX_INPUTS + 1, 1, 0),
        circuit(1, MAX_OUTPUTS + 1, 0),
        circuit(1, 1, MAX_GATES + 1),
        circuit(0, 1, 1),
        circuit(1, 0, 1),
    ];
    for circuit in beyond {
        assert_eq!(read(&circuit), Err(Refusal::CircuitSizes));
        assert_eq!(sizes(&circuit), Err(Refusal::CircuitSizes));
    }
}

/// The fields of a file that have 16 bits each: a kind and a zero byte are one of them.
fn old(circuit: &[u8]) -> Vec<u8> {
    let fields = circuit.chunks(4).flat_map(|field| [field[0], field[1]]);
    fields.collect()
}

#[test]
fn of_old_circuits() {
    let new = circuit(MAX_INPUTS, MAX_OUTPUTS, 4096);
    assert_eq!(upgrade_to_vec(&old(&new)), Ok(new.clone()));
    let mut room = vec![0; new.len()];
    assert_eq!(upgrade(&old(&new), &mut room[1..]), Err(Refusal::Length));
    assert_eq!(upgrade(&old(&new), &mut room), Ok(new.len()));
    let beyond = old(&circuit(1, 1, 4097));
    assert_eq!(upgrade_to_vec(&beyond), Err(Refusal::CircuitSizes));
}

/// A work buffer at its least length, and one byte shorter.
#[test]
fn of_work() {
    let counts = Counts { m: 2, tau: 1, n: 2 };
    let mut proof = vec![0; MAX_PROOF];
    for gates in [0, 1, MAX_GATES] {
        let circuit = circuit(1, 1, gates);
        let statement = Statement {
            circuit: &circuit,
            y: &[1],
            message: b"",
        };
        let least = Work::for_circuit(&circuit).expect("a circuit").len();
        assert_eq!(least, 64 * (1 + gates as usize) + 4096);
        let mut bytes = vec![0x5a; least];
        let mut short = Work::lent(&mut bytes[1..]);
        let (root, salt) = (&[1; ROOT_LEN], &SALT);
        let answer = prove(statement, &[1], root, salt, counts, &mut proof, &mut short);
        assert_eq!(answer, Err(Refusal::Length));
        assert!(bytes.iter().all(|&byte| byte == 0x5a));
        let mut enough = Work::lent(&mut bytes);
        let answer = prove(statement, &[1], root, salt, counts, &mut proof, &mut enough);
        let len = answer.expect("no refusal");
        assert_eq!(check(statement, &proof[..len], &mut enough), Ok(()));
        assert!(bytes.iter().all(|&byte| byte == 0));
    }
}

#[test]
fn of_trees() {
    let master = [1; ROOT_LEN];
    let expand = |j, n: u32| expand(j, n, &SALT, &master, &mut vec![0; n as usize * ROOT_LEN]);
    assert_eq!(expand(MAX_INSTANCE_NUMBER, MAX_PARTIES), Ok(()));
    assert_eq!(expand(MAX_INSTANCE_NUMBER + 1, 2), Err(Refusal::Counts));
    assert_eq!(expand(0, 2 * MAX_PARTIES), Err(Refusal::Counts));
    let masters = |m: u32| masters(m, &SALT, &master, &mut vec![0; m as usize * ROOT_LEN]);
    assert_eq!(masters(MAX_INSTANCES), Ok(()));
    assert_eq!(masters(2), Ok(()));
    assert_eq!(masters(MAX_INSTANCES + 1), Err(Refusal::Counts));
    assert_eq!(masters(1), Err(Refusal::Counts));
    // The last leaf is alone in its half of the tree: one node is opened, the other half.
    let last = |m: u32, leaf: u32| {
        let leaf = (leaf as u16).to_le_bytes();
        cover(m, &leaf, &SALT, &master, &mut [0; ROOT_LEN])
    };
    assert_eq!(last(2, 1), Ok(()));
    assert_eq!(last(2, 2), Err(Refusal::Party));
    assert_eq!(last(MAX_INSTANCES / 2 + 1, MAX_INSTANCES / 2), Ok(()));
    assert_eq!(last(MAX_INSTANCES, MAX_INSTANCES), Err(Refusal::Party));
    assert_eq!(last(MAX_INSTANCES + 1, 0), Err(Refusal::Counts));
}

/// `Counts::are_legal` says what the library says.
#[test]
fn of_counts() {
    let ms = [0, 1, 2, 3, 511, MAX_INSTANCES, MAX_INSTANCES + 1, u32::MAX];
    let taus = [0, 1, 2, 510, 511, 512, 513, u32::MAX];
    let ns = [
        0,
        1,
        2,
        3,
        4,
        6,
        8,
        15,
        16,
        17,
        32,
        48,
        63,
        64,
        65,
        128,
        1 << 31,
        u32::MAX,
    ];
    for m in ms {
        for tau in taus {
            for n in ns {
                let mut out = vec![0; 3 * tau.min(600) as usize];
                let input = ChallengeInput {
                    h_star: &[7; DIGEST_LEN],
                    salt: &SALT,
                    circuit_digest: &[8; DIGEST_LEN],
                    y: &[1],
                    message: b"",
                };
                let answer = challenge(m, tau, n, input, &mut out);
                let legal = Counts { m, tau, n }.are_legal();
                assert_eq!(answer != Err(Refusal::Counts), legal, "{m} {tau} {n}");
            }
        }
    }
}

#[test]
fn of_pages() {
    let page = |slots: u16, draws: u32| {
        let mut words = vec![slots, 0, 1, 0, draws as u16, (draws >> 16) as u16];
        for slot in 1..=slots {
            words.push((slot + 1) % (slots + 1));
            words.extend([0; ROOT_LEN / 2]);
        }
        let bytes = words.iter().flat_map(|word| word.to_le_bytes());
        bytes.collect::<Vec<u8>>()
    };
    let mut full = page(MAX_SLOTS, MAX_DRAWS);
    assert_eq!(Some(full.len()), shelf::page_len(MAX_SLOTS));
    for _ in 0..MAX_SLOTS {
        assert_eq!(shelf::stock(&mut full, &[1; ROOT_LEN]), Ok(()));
    }
    assert_eq!(shelf::stock(&mut full, &[1; ROOT_LEN]), Err(Refusal::Full));
    let count = u64::from(MAX_DRAWS);
    assert_eq!(shelf::draw(&mut full, count), Err(Refusal::Spent));
    for slots in [0, MAX_SLOTS + 1] {
        let answer = shelf::stock(&mut page(slots, 0), &[1; ROOT_LEN]);
        assert_eq!(answer, Err(Refusal::Unsound));
    }
    let answer = shelf::stock(&mut page(1, 0), &[1; ROOT_LEN + 1]);
    assert_eq!(answer, Err(Refusal::Length));
}

/// Circuit K of the paper, with its one AND gate.
const K: [u8; 36] = [
    2, 0, 0, 0, 1, 0, 0, 0, 1, 0, 0, 0, 1, 0, 0, 0, // I, O, G, head
    2, 0, 0, 0, // the output
    2, 0, 0, 0, 0, 0, 0, 0, 1, 0, 0, 0, 0, 0, 0, 0, // slot 1
];

fn work() -> Work {
    Work::for_circuit(&K).expect("a circuit")
}

fn k(message: &[u8]) -> Statement<'_> {
    Statement {
        circuit: &K,
        y: &[1],
        message,
    }
}

#[test]
fn of_messages() {
    let counts = Counts { m: 4, tau: 1, n: 2 };
    let mut work = work();
    let mut prove = |message: &[u8]| {
        let (root, proof) = (&[1; ROOT_LEN], &mut [0; 265]);
        prove(k(message), &[3], root, &SALT, counts, proof, &mut work)
    };
    assert!(prove(&[7; MAX_MESSAGE]).is_ok());
    assert_eq!(prove(&[7; MAX_MESSAGE + 1]), Err(Refusal::Length));
}

/// The last caller, the first and the last quota, and the shortest work buffer; and what is
/// beyond them.
#[test]
fn of_a_shared_checker() {
    let counts = Counts { m: 4, tau: 1, n: 2 };
    let mut proof = [0; 265];
    let made = prove(
        k(b""),
        &[3],
        &[1; ROOT_LEN],
        &SALT,
        counts,
        &mut proof,
        &mut work(),
    );
    let mut buffer = vec![];
    let places = Places::append(&mut buffer, k(b""), &proof[..made.expect("proved")]);
    let mut work = Work::for_every_circuit();
    let mut short = vec![0x5a; SHARED_WORK - 1];
    let mut short = Work::lent(&mut short);
    let mut checker = SharedChecker::new();
    let last = MAX_CALLERS as u32 - 1;
    for caller in [last + 1, u32::MAX] {
        let answer = checker.enter(caller, places, &buffer, &mut work);
        assert_eq!(answer, Err(Refusal::Caller));
    }
    let answer = checker.enter(last, places, &buffer, &mut short);
    assert_eq!(answer, Err(Refusal::Length));
    for caller in [0, last] {
        assert_eq!(checker.enter(caller, places, &buffer, &mut work), Ok(()));
        let answer = checker.enter(caller, places, &buffer, &mut work);
        assert_eq!(answer, Err(Refusal::Waiting));
    }
    for quota in [0, MAX_QUOTA + 1, u32::MAX] {
        let answer = checker.check(quota, &buffer, &mut work);
        assert_eq!(answer, Err(Refusal::Counts), "{quota}");
    }
    let answer = checker.check(1, &buffer, &mut short);
    assert_eq!(answer, Err(Refusal::Length));
    let counts = [1, MAX_QUOTA].map(|quota| {
        let checked = checker.check(quota, &buffer, &mut work);
        checked.expect("no refusal").count
    });
    assert_eq!(counts, [1, 7]);
    let answer = checker.check(1, &buffer, &mut work);
    assert_eq!(answer, Err(Refusal::NoneWaiting));
}

/// Every call that is lent a salt.
#[test]
fn of_salts() {
    let counts = Counts { m: 4, tau: 1, n: 2 };
    let mut work = work();
    let value = [1; ROOT_LEN];
    let mut answers = |len: usize| {
        let salt = &vec![7; len][..];
        let input = ChallengeInput {
            h_star: &[7; DIGEST_LEN],
            salt,
            circuit_digest: &[8; DIGEST_LEN],
            y: &[1],
            message: b"",
        };
        let (proof, work) = (&mut [0; 265], &mut work);
        [
            expand(0, 2, salt, &value, &mut [0; 2 * ROOT_LEN]),
            open(0, 2, 1, salt, &value, &mut [0; ROOT_LEN]),
            masters(2, salt, &value, &mut [0; 2 * ROOT_LEN]),
            cover(2, &[1, 0], salt, &value, &mut [0; ROOT_LEN]),
            challenge(4, 1, 2, input, &mut [0; 3]),
            prove(k(b""), &[3], &value, salt, counts, proof, work).map(|_| ()),
        ]
    };
    assert_eq!(answers(SALT_LEN), [Ok(()); 6]);
    for len in [0, 1, SALT_LEN - 1, SALT_LEN + 1, 2 * SALT_LEN] {
        assert_eq!(answers(len), [Err(Refusal::Length); 6], "{len}");
    }
}

/// The chosen instances of a proof, as the challenge is filled: 3 bytes each.
fn chosen(proof: &[u8], Counts { m, tau, n }: Counts, statement: Statement) -> Vec<u8> {
    let mut chosen = vec![0; 3 * tau as usize];
    let (rest, salt) = proof[..PROOF_HEADER_LEN].split_at(PROOF_HEADER_LEN - SALT_LEN);
    let input = ChallengeInput {
        h_star: &rest[rest.len() - DIGEST_LEN..],
        salt,
        circuit_digest: &sha3_256(statement.circuit),
        y: statement.y,
        message: statement.message,
    };
    challenge(m, tau, n, input, &mut chosen).expect("no refusal");
    chosen
}

/// How many nodes the cover of these instances has: the one number that is accepted.
fn opened(m: u32, chosen: &[u8]) -> u32 {
    let leaves = chosen.chunks(3).map(|instance| &instance[..2]);
    let leaves = leaves.collect::<Vec<_>>().concat();
    let accepted = |nodes: &u32| {
        let mut out = vec![0; *nodes as usize * ROOT_LEN];
        cover(m, &leaves, &SALT, &[1; ROOT_LEN], &mut out).is_ok()
    };
    let found: Vec<u32> = (0..=m).filter(accepted).collect();
    assert_eq!(found.len(), 1, "{found:?}");
    found[0]
}

#[test]
fn lengths_of_proofs() {
    let sizes = sizes(&K).expect("a circuit");
    let mut work = work();
    for (m, tau, n) in [
        (4, 1, 2),
        (9, 8, 4),
        (20, 7, 8),
        (12, 11, 16),
        (7, 3, 32),
        (5, 4, 64),
    ] {
        let counts = Counts { m, tau, n };
        let longest = longest_proof(sizes, counts).expect("legal counts");
        for seed in 0..8 {
            let (root, salt, message) = ([seed; ROOT_LEN], [seed; SALT_LEN], [seed]);
            let mut proof = vec![0; longest];
            let mut prove = |proof: &mut [u8]| {
                let statement = k(&message);
                prove(statement, &[3], &root, &salt, counts, proof, &mut work)
            };
            let short = prove(&mut proof[1..]);
            assert_eq!(short, Err(Refusal::Length), "{counts:?}");
            let len = prove(&mut proof).expect("room");
            proof.truncate(len);
            assert_eq!(check(k(&message), &proof, &mut work), Ok(()));
            assert_eq!(Counts::of_proof(&proof), Some(counts));
            assert!(proof[..PROOF_HEADER_LEN].ends_with(&salt));
            let chosen = chosen(&proof, counts, k(&message));
            let is_last = |instance: &&[u8]| u32::from(instance[2]) == n - 1;
            let last = chosen.chunks(3).filter(is_last).count() as u32;
            let opened = opened(m, &chosen);
            assert!(Some(opened) <= most_opened(m, tau), "{counts:?}");
            let expected = proof_len(sizes, counts, opened, last);
            assert_eq!(expected, Some(len), "{counts:?}");
        }
    }
}

/// `Counts::of_proof` is `None` exactly where a check is refused with 11.
#[test]
fn headers_of_proofs() {
    let mut work = work();
    let fields = [0, 1, 2, 3, 4, 8, 16, 32, 48, 63, 64, 65, 128, 255];
    for m in [[0, 0], [2, 0], [0, 2], [1, 2], [255, 255]] {
        for (tau, n) in fields.iter().flat_map(|&tau| fields.map(|n| (tau, n))) {
            for (zero, len) in [(0, 70), (1, 70), (0, 69), (0, 38), (0, 6), (0, 5), (0, 0)] {
                let mut proof = [5; 70];
                proof[..6].copy_from_slice(&[m[0], m[1], tau, 0, n, zero]);
                let proof = &proof[..len];
                let refused = check(k(b""), proof, &mut work) == Err(Refusal::ProofHeader);
                assert_eq!(Counts::of_proof(proof).is_none(), refused, "{proof:?}");
            }
        }
    }
}
