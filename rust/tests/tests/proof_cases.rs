//! Hand-made calls of prove and check: the cases of the scope paper, and each
//! refusal alone, at its edges, and before every later one. Both implementations
//! must give the answer that stands here.

use reference::circuit::Sizes;
use tests::calls::NOT_A_COUNT;
use tests::circuits::{faults_of_five, FIVE, K};
use tests::proofs::{compare_check, compare_prove, cover_place, longest, places, Check, Prove};
use tests::proofs::{HEADER, SALT};
use tests::random::Random;

const FIVE_SIZES: Sizes = Sizes {
    inputs: 5,
    outputs: 3,
    gates: 5,
    ands: 3,
};

/// Input 2 passes, input 3 is 0: wire 6 is 1, and so is wire 9 with input 4.
const WITNESS: u8 = 0b10110;
const Y: u8 = 0b111;

/// M is 6, tau 3 and n 4; the room that is asked for has 16 bytes of an opened node for
/// each of the 3 instances that are not chosen.
const COUNTS: [u32; 3] = [6, 3, 4];
const LONGEST: usize = 70 + 48 * 3 + 3 * (16 * 2 + 1 + 32 + 1 + 1);

/// The least work buffer for `FIVE`, which has 5 inputs and 5 gates.
const WORK: usize = 64 * 10 + 4096;

fn prove_k(root: [u8; 16]) -> Prove {
    Prove {
        circuit: K.to_vec(),
        witness: vec![3],
        y: vec![1],
        message: vec![],
        root: root.to_vec(),
        salt: vec![9; 32],
        counts: [4, 1, 2],
        proof_len: 265,
        work_len: 64 * 3 + 4096,
    }
}

fn prove_five() -> Prove {
    Prove {
        circuit: FIVE.to_vec(),
        witness: vec![WITNESS],
        y: vec![Y],
        message: b"message".to_vec(),
        root: vec![7; 16],
        salt: vec![9; 32],
        counts: COUNTS,
        proof_len: LONGEST,
        work_len: WORK,
    }
}

/// The proof of `prove_five`, with a root that hides a party before the last in
/// the first chosen instance and opens two nodes or more.
fn check_five() -> Check {
    let mut call = prove_five();
    for root in 0.. {
        call.root = vec![root; 16];
        let check = call.check(&call.by_reference().expect("proved"));
        let mut hidden = places(FIVE_SIZES, &check)
            .into_iter()
            .flat_map(|place| place.0);
        if hidden.next() < Some(3) && cover_place(&check).len() >= 32 {
            return check;
        }
    }
    unreachable!("most roots are good");
}

fn proved(name: &str, call: &Prove, expected: Result<usize, u32>) {
    let answer = compare_prove(&mut Random::new(1), call);
    let len = answer.map(|proof| proof.len());
    assert_eq!(len, expected, "{name}: {}", call.shown());
}

fn checked(name: &str, call: &Check, expected: Result<(), u32>) {
    let answer = compare_check(&mut Random::new(1), call);
    assert_eq!(answer, expected, "{name}: {}", call.shown());
}

/// 249 bytes if party 0 is hidden, 248 if party 1 is; the room is 265 all the same.
#[test]
fn m10() {
    let mut times = [0; 2];
    for root in 0..32 {
        let call = prove_k([root; 16]);
        let proof = compare_prove(&mut Random::new(1), &call).expect("proved");
        let check = call.check(&proof);
        checked("m10", &check, Ok(()));
        let sizes = reference::circuit::read(&K).expect("a legal circuit");
        let hidden: Vec<u8> = places(sizes, &check)
            .into_iter()
            .flat_map(|place| place.0)
            .collect();
        let [p] = hidden[..] else {
            panic!("one chosen instance");
        };
        assert_eq!(proof.len(), [249, 248][usize::from(p)], "root {root}");
        assert_eq!(
            cover_place(&check),
            70..102,
            "two opened nodes, root {root}"
        );
        times[usize::from(p)] += 1;
    }
    assert!(times.iter().all(|&times| times > 4), "{times:?}");
}

/// The first bytes are M, tau, n and 0; the last of the header are the salt.
#[test]
fn the_header() {
    for (counts, expected) in [
        ([4, 1, 2], [4, 0, 1, 0, 2, 0]),
        ([512, 511, 2], [0, 2, 255, 1, 2, 0]),
        ([258, 256, 16], [2, 1, 0, 1, 16, 0]),
    ] {
        let mut call = prove_five();
        call.counts = counts;
        call.proof_len = longest(FIVE_SIZES, counts);
        let proof = compare_prove(&mut Random::new(1), &call).expect("proved");
        assert_eq!(proof[..6], expected);
        assert_eq!(proof[SALT], [9; 32]);
        checked("header", &call.check(&proof), Ok(()));
    }
}

#[test]
fn good_calls_are_good() {
    let proof = prove_five().by_reference().expect("proved");
    proved("prove", &prove_five(), Ok(proof.len()));
    checked("check", &check_five(), Ok(()));
    assert_eq!(longest(FIVE_SIZES, COUNTS), LONGEST);
}

/// A buffer that would hold this proof, yet not every one of these counts.
#[test]
fn a_buffer_that_is_nearly_large_enough() {
    let mut shorter = 0;
    for root in 0..16 {
        let mut call = prove_five();
        call.root = vec![root; 16];
        let len = call.by_reference().expect("proved").len();
        shorter += usize::from(len < LONGEST);
        for proof_len in len.min(LONGEST - 1)..LONGEST {
            call.proof_len = proof_len;
            proved("nearly", &call, Err(6));
        }
        for proof_len in [LONGEST, LONGEST + 1, LONGEST + 500] {
            call.proof_len = proof_len;
            proved("enough", &call, Ok(len));
        }
    }
    assert!(shorter > 4, "{shorter} of 16");
}

#[test]
fn counts_out_of_limits() {
    let out = |counts: [u32; 3]| {
        let mut call = prove_five();
        call.counts = counts;
        call.proof_len = 40_000;
        proved("counts", &call, Err(8));
    };
    for m in [0, 1, 513, 514, 1024, 65_536 + 6, 1 << 31, u32::MAX] {
        out([m, 1, 4]);
        out([m, 3, 4]);
        out([m, m, 4]);
        out([m, m.wrapping_sub(1), 4]);
    }
    for m in [2, 3, 6, 511, 512] {
        for tau in [0, m, m + 1, m + 256, 65_536 + 1, 1 << 31, u32::MAX] {
            out([m, tau, 4]);
        }
    }
    for n in NOT_A_COUNT {
        out([6, 3, n]);
    }
}

#[test]
fn lengths_of_prove() {
    let good = prove_five();
    for len in [0, 2, 3, 257] {
        let witness = vec![0xff; len];
        let call = Prove {
            witness,
            ..good.clone()
        };
        proved("witness", &call, Err(6));
        let y = vec![0xff; len];
        proved("y", &Prove { y, ..good.clone() }, Err(6));
    }
    for len in [4097, 4098, 65_535, 65_536, 65_536 + 7] {
        let message = vec![0; len];
        let call = Prove {
            message,
            ..good.clone()
        };
        proved("message", &call, Err(6));
    }
    for len in [0, 1, 15, 17, 32, 256 + 16] {
        let root = vec![7; len];
        let call = Prove {
            root,
            ..good.clone()
        };
        proved("root", &call, Err(6));
    }
    for len in [0, 1, 16, 31, 33, 64, 256 + 32] {
        let salt = vec![9; len];
        let call = Prove {
            salt,
            ..good.clone()
        };
        proved("salt", &call, Err(6));
    }
    for proof_len in [
        0,
        1,
        38,
        69,
        70,
        71,
        LONGEST - 48,
        LONGEST - 32,
        LONGEST - 1,
    ] {
        let call = Prove {
            proof_len,
            ..good.clone()
        };
        proved("proof", &call, Err(6));
    }
}

#[test]
fn lengths_of_check() {
    let good = check_five();
    for len in [0, 2, 3, 257] {
        let y = vec![0xff; len];
        checked("y", &Check { y, ..good.clone() }, Err(6));
    }
    for len in [4097, 4098, 65_535, 65_536, 65_536 + 7] {
        let message = vec![0; len];
        let call = Check {
            message,
            ..good.clone()
        };
        checked("message", &call, Err(6));
    }
}

/// Each bit of witness and y: 7 out of use, else 10 where the output is another.
#[test]
fn bits_of_prove() {
    for bit in 0..8 {
        let mut call = prove_five();
        call.witness[0] ^= 1 << bit;
        let mut y = [0];
        let again = reference::circuit::evaluate(&FIVE, &call.witness, &mut y);
        let expected = match (again, y == [Y]) {
            (Err(refusal), _) => Some(refusal),
            (Ok(()), same) => (!same).then_some(10),
        };
        assert_eq!(expected == Some(7), bit >= 5, "bit {bit}");
        let answer = compare_prove(&mut Random::new(1), &call).err();
        assert_eq!(answer, expected, "witness bit {bit}");

        let mut call = prove_five();
        call.y[0] ^= 1 << bit;
        let expected = if bit < 3 { 10 } else { 7 };
        proved("y", &call, Err(expected));
    }
}

/// A change of a call, and the refusal that it leads to.
type Fault<T> = (u32, Box<dyn Fn(&mut T)>);

fn in_prove(refusal: u32, change: impl Fn(&mut Prove) + 'static) -> Fault<Prove> {
    (refusal, Box::new(change))
}

fn in_check(refusal: u32, change: impl Fn(&mut Check) + 'static) -> Fault<Check> {
    (refusal, Box::new(change))
}

/// Faults of a call of prove, in the order of their refusals.
fn faults_of_prove() -> Vec<Vec<Fault<Prove>>> {
    let circuits = faults_of_five()
        .map(|(refusal, file)| in_prove(refusal, move |call| call.circuit.clone_from(&file)));
    vec![
        circuits.into(),
        vec![
            in_prove(6, |call| call.work_len = 0),
            in_prove(6, |call| call.work_len = WORK - 1),
        ],
        vec![
            in_prove(8, |call| call.counts[0] = 1),
            in_prove(8, |call| call.counts[0] = 513),
            in_prove(8, |call| call.counts[1] = 0),
            in_prove(8, |call| call.counts[1] = call.counts[0]),
            in_prove(8, |call| call.counts[2] = 3),
        ],
        vec![
            in_prove(6, |call| call.witness.push(0xff)),
            in_prove(6, |call| call.y.push(0xff)),
            in_prove(6, |call| call.message = vec![0; 4097]),
            in_prove(6, |call| call.root.push(7)),
            in_prove(6, |call| call.salt.clear()),
            in_prove(6, |call| call.salt.truncate(31)),
            in_prove(6, |call| call.salt.push(9)),
            in_prove(6, |call| call.proof_len = LONGEST - 1),
        ],
        vec![
            in_prove(7, |call| call.witness[0] |= 0x20),
            in_prove(7, |call| call.witness[0] |= 0x80),
            in_prove(7, |call| call.y[0] |= 0x08),
        ],
        vec![
            in_prove(10, |call| call.y[0] ^= 1),
            in_prove(10, |call| call.witness[0] ^= 1 << 4),
        ],
    ]
}

/// The place of the first chosen stretch, and of the first that is not.
fn chosen_and_not(call: &Check) -> [usize; 2] {
    let places = places(FIVE_SIZES, call);
    [true, false].map(|chosen| {
        let mut of_kind = places.iter().filter(|place| place.0.is_some() == chosen);
        of_kind.next().expect("a stretch").1
    })
}

/// Faults of a call of check, in the order of their refusals.
fn faults_of_check() -> Vec<Vec<Fault<Check>>> {
    let circuits = faults_of_five()
        .map(|(refusal, file)| in_check(refusal, move |call| call.circuit.clone_from(&file)));
    let mut faults = vec![
        circuits.into(),
        vec![
            in_check(6, |call| call.work_len = 0),
            in_check(6, |call| call.work_len = WORK - 1),
        ],
        vec![
            in_check(6, |call| call.y.push(0xff)),
            in_check(6, |call| call.message = vec![0; 4097]),
        ],
        vec![in_check(7, |call| call.y[0] |= 0x08)],
    ];
    faults.push(faults_of_the_header());
    faults.push(vec![
        in_check(12, |call| call.proof.push(0)),
        in_check(12, |call| call.proof.truncate(call.proof.len() - 1)),
        in_check(12, |call| call.proof.truncate(HEADER)),
        in_check(12, |call| call.proof.truncate(HEADER + 16)),
        in_check(12, |call| drop(call.proof.drain(HEADER..HEADER + 16))),
        in_check(12, |call| drop(call.proof.splice(HEADER..HEADER, [7; 16]))),
    ]);
    faults.extend(faults_of_stretches());
    faults
}

fn faults_of_the_header() -> Vec<Fault<Check>> {
    let mut faults = vec![
        in_check(11, |call| call.proof.truncate(69)),
        in_check(11, |call| call.proof.truncate(38)),
        in_check(11, |call| call.proof.clear()),
    ];
    for (place, byte) in [(0, 1), (1, 3), (2, 0), (2, 6), (4, 3), (5, 1)] {
        faults.push(in_check(11, move |call| call.proof[place] = byte));
    }
    faults
}

/// A stretch with party p < 3 hidden has 32 bytes of siblings, 1 of corrections,
/// 32 of com_p, 1 of masked inputs and 1 of broadcasts.
fn faults_of_stretches() -> [Vec<Fault<Check>>; 3] {
    let [chosen, not_chosen] = chosen_and_not(&check_five());
    let set = |place: usize, bits: u8| in_check(7, move |call| call.proof[place] |= bits);
    let turn =
        |refusal, place: usize, bits: u8| in_check(refusal, move |call| call.proof[place] ^= bits);
    [
        vec![
            set(chosen + 32, 0x08),
            set(chosen + 65, 0x20),
            set(chosen + 66, 0x40),
        ],
        vec![
            turn(10, chosen + 66, 1 << FIVE_SIZES.ands),
            turn(10, chosen + 66, 4 << FIVE_SIZES.ands),
        ],
        vec![
            turn(13, chosen + 33, 1),
            turn(13, not_chosen, 1),
            turn(13, not_chosen + 31, 1),
            turn(13, HEADER, 1),
            turn(13, HEADER + 31, 0x80),
        ],
    ]
}

/// Each fault alone, and each two whose refusals are apart: the earlier answers.
fn in_order<T: Clone>(good: &T, faults: &[Vec<Fault<T>>], ask: impl Fn(&T, u32)) {
    for (place, group) in faults.iter().enumerate() {
        for (refusal, change) in group {
            let mut call = good.clone();
            change(&mut call);
            ask(&call, *refusal);
            for (_, later) in faults[place + 1..].iter().flatten() {
                let mut call = good.clone();
                later(&mut call);
                change(&mut call);
                ask(&call, *refusal);
            }
        }
    }
}

#[test]
fn refusals_of_prove_in_order() {
    in_order(&prove_five(), &faults_of_prove(), |call, refusal| {
        proved("in order", call, Err(refusal))
    });
}

#[test]
fn refusals_of_check_in_order() {
    in_order(&check_five(), &faults_of_check(), |call, refusal| {
        checked("in order", call, Err(refusal))
    });
}

/// A bit out of use in a later instance comes before an output in an earlier
/// one, and an output in a later one before an h* that differs by an earlier.
#[test]
fn refusals_over_all_instances() {
    let good = check_five();
    let places = places(FIVE_SIZES, &good);
    let mut ends = places.iter().filter(|place| place.0.is_some());
    let mut end_of = || ends.next().map(|(_, start, len)| start + len - 1);
    let [first, second] = [0; 2].map(|_| end_of().expect("three chosen"));
    let output = 1 << FIVE_SIZES.ands;
    for (early, late) in [(first, second), (second, first)] {
        let mut call = good.clone();
        call.proof[early] ^= output;
        checked("output", &call, Err(10));
        call.proof[late] |= 0x80;
        checked("output and unused bit", &call, Err(7));

        let mut call = good.clone();
        call.proof[early - 2] ^= 1;
        checked("com", &call, Err(13));
        call.proof[late] ^= output;
        checked("com and output", &call, Err(10));
    }
}

/// tau = M gives 8, and 11 in a proof's header.
#[test]
fn tau_is_m() {
    for m in [2, 3, 4, 512] {
        let mut call = prove_five();
        (call.counts, call.proof_len) = ([m, m, 4], 40_000);
        proved("tau = M", &call, Err(8));
        let mut call = check_five();
        call.proof[..2].copy_from_slice(&(m as u16).to_le_bytes());
        call.proof[2..4].copy_from_slice(&(m as u16).to_le_bytes());
        checked("tau = M", &call, Err(11));
    }
}

/// A message of 4,096 bytes is good, one of 4,097 gives 6.
#[test]
fn the_longest_message() {
    let mut call = prove_five();
    call.message = vec![9; 4096];
    let proof = compare_prove(&mut Random::new(1), &call).expect("proved");
    let mut check = call.check(&proof);
    checked("4,096", &check, Ok(()));
    call.message.push(9);
    proved("4,097", &call, Err(6));
    check.message.push(9);
    checked("4,097", &check, Err(6));
}
