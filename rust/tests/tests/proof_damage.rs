//! Damaged proofs, and good proofs for another statement. Both implementations
//! must give the same answer, and one that the damage allows.

use reference::bits::oct;
use reference::circuit::Sizes;
use tests::calls::{Setting, COUNTS, NOT_A_COUNT};
use tests::circuits::damaged;
use tests::outcomes::Outcomes;
use tests::proofs::{compare_check, compare_prove, cover_place, places, Check, Prove};
use tests::proofs::{HEADER, SALT};
use tests::random::Random;

const CIRCUITS: usize = 2_000;
const DAMAGED: usize = 3_000;

/// A proof that is accepted.
struct Proved {
    setting: Setting,
    call: Check,
}

impl Proved {
    fn of(random: &mut Random, sizes: [usize; 3], counts: [u32; 3]) -> Proved {
        let [m, tau, n] = counts;
        let setting = Setting::of_sizes(random, sizes, n);
        let call = Prove::of(random, &setting, [m, tau], 9);
        let proof = call.by_reference().expect("proved");
        let call = call.check(&proof);
        assert_eq!(compare_check(random, &call), Ok(()));
        Proved { setting, call }
    }

    fn places(&self) -> Vec<(Option<u8>, usize, usize)> {
        places(self.setting.sizes, &self.call)
    }

    /// The check of another proof for the same statement.
    fn with(&self, proof: Vec<u8>) -> Check {
        Check {
            proof,
            ..self.call.clone()
        }
    }
}

/// Proofs of a few hundred bytes: every n, both kinds of hidden party, and bits
/// out of use in every part that has them.
fn small_proofs(random: &mut Random) -> Vec<Proved> {
    let counts = [
        [4, 1, 2],
        [4, 3, 2],
        [2, 1, 2],
        [5, 2, 4],
        [3, 2, 4],
        [4, 2, 8],
        [2, 1, 16],
        [3, 2, 16],
    ];
    let shapes = [[2, 1, 1], [3, 2, 6], [9, 3, 12], [5, 4, 0], [8, 7, 9]];
    let mut shapes = shapes.into_iter().cycle();
    let twice = counts.into_iter().chain(counts);
    twice
        .map(|counts| Proved::of(random, shapes.next().expect("a shape"), counts))
        .collect()
}

/// The same by 32 and by 64 parties.
fn wide_proofs(random: &mut Random) -> [Proved; 3] {
    let of = [
        ([2, 1, 1], [2, 1, 32]),
        ([9, 3, 12], [3, 2, 64]),
        ([8, 7, 9], [2, 1, 64]),
    ];
    of.map(|(sizes, counts)| Proved::of(random, sizes, counts))
}

/// The parts of an instance's stretch: each with its bytes, its bits in use, and
/// what a changed bit in use can lead to.
fn parts(sizes: Sizes, n: u32, hidden: Option<u8>) -> Vec<(usize, usize, &'static [u32])> {
    let Some(p) = hidden else {
        return vec![(32, 8 * 32, &[13])];
    };
    let siblings = 16 * n.ilog2() as usize;
    let corrections = match u32::from(p) == n - 1 {
        true => 0,
        false => sizes.ands,
    };
    let row = oct(sizes.ands + sizes.outputs);
    vec![
        (siblings, 8 * siblings, &[10, 13]),
        (oct(corrections), corrections, &[10, 13]),
        (32, 8 * 32, &[13]),
        (oct(sizes.inputs), sizes.inputs, &[10, 13]),
        (row, sizes.ands + sizes.outputs, &[10, 13]),
    ]
}

/// What a changed bit of the proof can lead to.
fn allowed(proved: &Proved, bit: usize) -> &'static [u32] {
    match bit / 8 {
        0..5 => return &[7, 10, 11, 12, 13],
        5 => return &[11],
        6..HEADER => return &[7, 10, 12, 13],
        byte if cover_place(&proved.call).contains(&byte) => return &[13],
        _ => {}
    }
    let Setting { sizes, n, .. } = proved.setting;
    let mut places = proved.places().into_iter();
    let within = places.find(|(_, start, len)| bit / 8 < start + len);
    let (hidden, start, _) = within.expect("a stretch");
    let mut bit = bit - 8 * start;
    for (len, used, in_use) in parts(sizes, n, hidden) {
        if bit < 8 * len {
            return if bit < used { in_use } else { &[7] };
        }
        bit -= 8 * len;
    }
    panic!("bit {bit} beyond the stretch");
}

/// Turns a bit of a proof; gives the refusal, which is one that this can lead to.
fn turned(random: &mut Random, proved: &Proved, bit: usize) -> u32 {
    let mut call = proved.call.clone();
    call.proof[bit / 8] ^= 1 << (bit % 8);
    let answer = compare_check(random, &call);
    let refusal = answer.expect_err("a changed bit");
    let shown = call.shown();
    let allowed = allowed(proved, bit);
    assert!(allowed.contains(&refusal), "{refusal}, bit {bit}, {shown}");
    refusal
}

#[test]
fn every_bit() {
    let mut random = Random::new(81);
    let mut outcomes = Outcomes::default();
    for proved in small_proofs(&mut random) {
        for bit in 0..8 * proved.call.proof.len() {
            outcomes.add(turned(&mut random, &proved, bit));
        }
    }
    outcomes.expect(&[7, 10, 11, 12, 13], 100);
}

/// Every eleventh bit, which is one or none of each byte, and every bit of the last byte.
#[test]
fn some_bits_of_many_parties() {
    let mut random = Random::new(96);
    let mut outcomes = Outcomes::default();
    for proved in wide_proofs(&mut random) {
        let bits = 8 * proved.call.proof.len();
        for bit in (0..bits).step_by(11).chain(bits - 8..bits) {
            outcomes.add(turned(&mut random, &proved, bit));
        }
    }
    outcomes.expect(&[7, 10, 11, 12, 13], 2);
}

/// The hidden party's share of an output decides that output.
#[test]
fn every_output_bit() {
    let mut random = Random::new(82);
    let mut proofs = small_proofs(&mut random);
    proofs.extend(wide_proofs(&mut random));
    for proved in proofs {
        let Sizes { ands, outputs, .. } = proved.setting.sizes;
        let row_len = oct(ands + outputs);
        let chosen = proved
            .places()
            .into_iter()
            .filter(|place| place.0.is_some());
        for (_, start, len) in chosen {
            for bit in ands..ands + outputs {
                let mut call = proved.call.clone();
                call.proof[start + len - row_len + bit / 8] ^= 1 << (bit % 8);
                assert_eq!(compare_check(&mut random, &call), Err(10));
                call.y[(bit - ands) / 8] ^= 1 << ((bit - ands) % 8);
                assert!(compare_check(&mut random, &call).is_err());
            }
        }
    }
}

#[test]
fn every_cut() {
    let mut random = Random::new(83);
    let mut proofs = small_proofs(&mut random);
    proofs.extend(wide_proofs(&mut random));
    for proved in proofs {
        for len in 0..proved.call.proof.len() {
            let call = proved.with(proved.call.proof[..len].to_vec());
            let expected = if len < HEADER { 11 } else { 12 };
            assert_eq!(compare_check(&mut random, &call), Err(expected), "{len}");
        }
    }
}

#[test]
fn every_extension() {
    let mut random = Random::new(84);
    for proved in small_proofs(&mut random) {
        let len = proved.call.proof.len();
        for more in (1..len + 60).chain([65_536, 65_536 + 48]) {
            let extended = match random.below(2) {
                0 => [&proved.call.proof[..], &random.bytes(more)].concat(),
                _ => [&proved.call.proof[..], &vec![0; more]].concat(),
            };
            let answer = compare_check(&mut random, &proved.with(extended));
            assert_eq!(answer, Err(12), "{len} and {more}");
        }
    }
}

/// The header, the opened nodes and the stretches, in the order of `places`.
fn put_together(call: &Check, places: &[(Option<u8>, usize, usize)]) -> Vec<u8> {
    let proof = &call.proof;
    let parts = places.iter().map(|&(_, start, len)| &proof[start..][..len]);
    let parts: Vec<&[u8]> = parts.collect();
    [&proof[..cover_place(call).end], &parts.concat()].concat()
}

/// Every two stretches exchanged. Two that are not chosen have no other test
/// than h*.
#[test]
fn exchanged_stretches() {
    let mut random = Random::new(85);
    let mut outcomes = Outcomes::default();
    let mut proofs = small_proofs(&mut random);
    proofs.extend(wide_proofs(&mut random));
    for proved in proofs {
        let places = proved.places();
        for b in 0..places.len() {
            for a in 0..b {
                let mut exchanged = places.clone();
                exchanged.swap(a, b);
                let proof = put_together(&proved.call, &exchanged);
                let answer = compare_check(&mut random, &proved.with(proof));
                let refusal = answer.expect_err("exchanged");
                let unchosen = places[a].0.is_none() && places[b].0.is_none();
                assert!(!unchosen || refusal == 13, "{refusal}, {a} and {b}");
                outcomes.add(refusal);
            }
        }
    }
    outcomes.expect(&[7, 10, 13], 5);
}

/// A stretch, or a part of one, from a proof with another root.
#[test]
fn stretches_of_another_proof() {
    let mut random = Random::new(86);
    for n in COUNTS {
        let setting = Setting::of_sizes(&mut random, [9, 3, 12], n);
        let [one, other] = [0; 2].map(|_| {
            let mut call = Prove::of(&mut random, &setting, [8, 3], 0);
            call.message = b"the same".to_vec();
            call.check(&call.by_reference().expect("proved"))
        });
        let others = places(setting.sizes, &other);
        for (j, (_, start, len)) in places(setting.sizes, &one).into_iter().enumerate() {
            let (_, from, other_len) = others[j];
            let mut call = one.clone();
            let both = len.min(other_len);
            call.proof[start..][..both].copy_from_slice(&other.proof[from..][..both]);
            assert!(compare_check(&mut random, &call).is_err(), "instance {j}");
        }
        let mut call = one.clone();
        call.proof[..HEADER].copy_from_slice(&other.proof[..HEADER]);
        assert!(compare_check(&mut random, &call).is_err(), "header");
        for node in cover_place(&one).step_by(16) {
            let mut call = one.clone();
            call.proof[node..][..16].copy_from_slice(&other.proof[node..][..16]);
            let answer = compare_check(&mut random, &call);
            assert_eq!(answer, Err(13), "a node at {node}");
        }
    }
}

/// Another salt has another challenge, and other nodes, seeds and tapes: 12 where the
/// challenge asks for another length, and for a large proof it does.
#[test]
fn another_salt() {
    let mut random = Random::new(94);
    let mut outcomes = Outcomes::default();
    let mut proofs = small_proofs(&mut random);
    proofs.extend(large_proofs(&mut random));
    for proved in proofs {
        let mut others: Vec<[u8; 32]> = vec![[0; 32], [255; 32]];
        for bit in 0..256 {
            let mut salt: [u8; 32] = proved.call.proof[SALT].try_into().expect("32 bytes");
            salt[bit / 8] ^= 1 << (bit % 8);
            others.push(salt);
        }
        for salt in others {
            let mut call = proved.call.clone();
            call.proof[SALT].copy_from_slice(&salt);
            let refusal = compare_check(&mut random, &call).expect_err("another salt");
            assert!([7, 10, 12, 13].contains(&refusal), "{refusal}, {salt:?}");
            outcomes.add(refusal);
        }
    }
    outcomes.expect(&[7, 10, 12, 13], 20);
}

/// h* and salt exchanged.
#[test]
fn exchanged_in_the_header() {
    let mut random = Random::new(95);
    for proved in large_proofs(&mut random) {
        let mut call = proved.call.clone();
        call.proof[6..HEADER].rotate_left(32);
        assert!(
            compare_check(&mut random, &call).is_err(),
            "{}",
            call.shown()
        );
    }
}

/// Proofs whose challenge another message cannot be expected to give.
fn large_proofs(random: &mut Random) -> Vec<Proved> {
    let counts = [
        [60, 20, 4],
        [40, 13, 8],
        [30, 14, 16],
        [200, 70, 2],
        [25, 11, 64],
    ];
    counts
        .map(|counts| Proved::of(random, [9, 11, 14], counts))
        .into()
}

#[test]
fn another_message() {
    let mut random = Random::new(87);
    for proved in large_proofs(&mut random) {
        let message = &proved.call.message;
        let mut others = vec![vec![], message[1..].to_vec()];
        others.push([&message[..], &[0]].concat());
        others.push([&message[..], &vec![0; 4096 - message.len()]].concat());
        for bit in 0..8 * message.len() {
            let mut other = message.clone();
            other[bit / 8] ^= 1 << (bit % 8);
            others.push(other);
        }
        for message in others {
            let call = Check {
                message,
                ..proved.call.clone()
            };
            assert!(compare_check(&mut random, &call).is_err());
        }
    }
}

/// Another y has another challenge; where that asks for the same, its output is
/// not this y.
#[test]
fn another_y() {
    let mut random = Random::new(88);
    let mut outcomes = Outcomes::default();
    let mut proofs = small_proofs(&mut random);
    proofs.extend(large_proofs(&mut random));
    for proved in proofs {
        let y = &proved.call.y;
        for bit in 0..8 * y.len() {
            let mut call = proved.call.clone();
            call.y[bit / 8] ^= 1 << (bit % 8);
            let allowed: &[u32] = match bit < proved.setting.sizes.outputs {
                true => &[7, 10, 12, 13],
                false => &[7],
            };
            let refusal = compare_check(&mut random, &call).expect_err("another y");
            assert!(allowed.contains(&refusal), "{refusal}, bit {bit}");
            outcomes.add(refusal);
        }
        for len in [0, y.len() - 1, y.len() + 1, y.len() + 256] {
            let mut call = proved.call.clone();
            call.y.resize(len, 0xff);
            assert_eq!(compare_check(&mut random, &call), Err(6), "{len}");
        }
    }
    outcomes.expect(&[7, 10, 12], 5);
}

/// The check of a proof for its circuit with one change, or for any other one.
fn with_another_circuit(random: &mut Random, proved: &Proved) -> Check {
    let Setting { file, slots, n, .. } = &proved.setting;
    let circuit = match random.below(4) {
        0 => {
            let Sizes {
                inputs,
                outputs,
                gates,
                ..
            } = proved.setting.sizes;
            let outputs = random.pick(&[outputs, outputs, outputs + 8]);
            Setting::of_sizes(random, [inputs, outputs, gates], *n).circuit
        }
        _ => damaged(random, file, slots),
    };
    Check {
        circuit,
        ..proved.call.clone()
    }
}

/// A change that no replay meets is accepted, where the challenge of the other
/// file happens to be the same.
#[test]
fn another_circuit() {
    let mut random = Random::new(89);
    let proofs = small_proofs(&mut random);
    let mut outcomes = Outcomes::default();
    for proved in proofs.iter().cycle().take(CIRCUITS) {
        let call = with_another_circuit(&mut random, proved);
        let answer = compare_check(&mut random, &call);
        let same_challenge = || call.hidden() == proved.call.hidden();
        assert!(answer.is_err() || same_challenge(), "{}", call.shown());
        outcomes.add_answer(&answer);
    }
    outcomes.expect(&[0, 1, 2, 3, 5, 6, 7, 10, 12, 13, 19, 20, 21], 3);
}

/// Where no challenge can be expected to be the same, every other file is refused.
#[test]
fn another_circuit_for_a_large_proof() {
    let mut random = Random::new(93);
    let proofs = large_proofs(&mut random);
    let mut outcomes = Outcomes::default();
    for proved in proofs.iter().cycle().take(CIRCUITS) {
        let call = with_another_circuit(&mut random, proved);
        let answer = compare_check(&mut random, &call);
        let same_file = call.circuit == proved.call.circuit;
        assert_eq!(answer.is_ok(), same_file, "{}", call.shown());
        outcomes.add_answer(&answer);
    }
    outcomes.expect(&[0, 1, 2, 3, 5, 6, 7, 12, 19, 20, 21], 3);
}

/// Any M, tau and n in the header of a proof.
#[test]
fn another_header() {
    let mut random = Random::new(90);
    let numbers = [
        0, 1, 2, 3, 4, 5, 6, 255, 256, 257, 511, 512, 513, 0x8002, 65_535,
    ];
    let parties = [
        0, 1, 2, 3, 4, 5, 6, 8, 9, 15, 16, 17, 32, 48, 63, 64, 65, 128, 130, 255,
    ];
    for proved in small_proofs(&mut random).iter().step_by(7) {
        for (m, tau) in numbers.iter().flat_map(|&m| numbers.map(|tau| (m, tau))) {
            for n in parties {
                let mut call = proved.call.clone();
                call.proof[..2].copy_from_slice(&(m as u16).to_le_bytes());
                call.proof[2..4].copy_from_slice(&(tau as u16).to_le_bytes());
                call.proof[4] = n;
                let in_limits =
                    (2..=512).contains(&m) && (1..m).contains(&tau) && COUNTS.contains(&n.into());
                let answer = compare_check(&mut random, &call);
                let shown = call.shown();
                assert_eq!(answer == Err(11), !in_limits, "{shown}");
                assert_eq!(answer.is_ok(), call.proof == proved.call.proof, "{shown}");
            }
        }
        for zero in 1..=255 {
            let mut call = proved.call.clone();
            call.proof[5] = zero;
            assert_eq!(compare_check(&mut random, &call), Err(11));
        }
    }
}

/// Bytes of any length that no prover made.
#[test]
fn any_bytes() {
    let mut random = Random::new(91);
    for proved in small_proofs(&mut random) {
        for _ in 0..100 {
            let mut proof = proved.call.proof.clone();
            let from = random.pick(&[0, 6, SALT.start, HEADER]);
            random.fill(&mut proof[from..]);
            let answer = compare_check(&mut random, &proved.with(proof));
            assert!(answer.is_err(), "from {from}");
        }
    }
}

/// Another length for a buffer.
fn another_length(random: &mut Random, bytes: &mut Vec<u8>) {
    let len = bytes.len();
    let other = random.pick(&[0, len.saturating_sub(1), len + 1, 2 * len, len + 256]);
    let fill = random.word() as u8;
    bytes.resize(other, fill);
}

/// Flips a bit, often in the last byte.
fn flip(random: &mut Random, bytes: &mut [u8]) {
    if !bytes.is_empty() {
        let place = random.below(bytes.len());
        let place = random.pick(&[place, bytes.len() - 1]);
        bytes[place] ^= 1 << random.below(8);
    }
}

/// Changes one thing that prove is lent. The call may be good nevertheless.
fn damage_prove(random: &mut Random, setting: &Setting, call: &mut Prove) {
    match random.below(16) {
        15 => another_length(random, &mut call.salt),
        14 => call.work_len = random.pick(&[0, 1, call.work_len.saturating_sub(1)]),
        0 | 1 => call.circuit = damaged(random, &setting.file, &setting.slots),
        2 => call.counts[0] = random.pick(&[0, 1, 3, 513, 65_536 + 4, u32::MAX]),
        3 => call.counts[1] = random.pick(&[0, 1, call.counts[0], 65_537, 1 << 31]),
        4 => call.counts[2] = random.pick(&[&NOT_A_COUNT[..], &COUNTS].concat()),
        5 => another_length(random, &mut call.witness),
        6 => another_length(random, &mut call.y),
        7 => call.message = vec![1; random.pick(&[0, 4096, 4097, 65_536])],
        8 => another_length(random, &mut call.root),
        9 => call.proof_len -= 1,
        10 | 11 => flip(random, &mut call.witness),
        _ => flip(random, &mut call.y),
    }
}

/// The same for check.
fn damage_check(random: &mut Random, setting: &Setting, call: &mut Check) {
    match random.below(15) {
        14 => call.work_len = random.pick(&[0, 1, call.work_len.saturating_sub(1)]),
        0 | 1 => call.circuit = damaged(random, &setting.file, &setting.slots),
        2 => another_length(random, &mut call.y),
        3 => call.message = vec![1; random.pick(&[0, 4096, 4097, 65_536])],
        4 | 5 => flip(random, &mut call.y),
        6 => another_length(random, &mut call.proof),
        7 => call.proof.truncate(random.below(HEADER + 20)),
        8 => {
            let header = call.proof.len().min(6);
            flip(random, &mut call.proof[..header]);
        }
        _ => flip(random, &mut call.proof),
    }
}

/// Up to three things wrong at once: the first in the paper's order is answered.
#[test]
fn damaged_calls() {
    let mut random = Random::new(92);
    let mut outcomes = [Outcomes::default(), Outcomes::default()];
    for _ in 0..DAMAGED {
        let setting = Setting::any(&mut random);
        let mut prove = Prove::of(&mut random, &setting, [3, 1], 9);
        let mut check = prove.check(&prove.by_reference().expect("proved"));
        for _ in 0..random.from_to(1, 3) {
            damage_prove(&mut random, &setting, &mut prove);
            damage_check(&mut random, &setting, &mut check);
        }
        outcomes[0].add_answer(&compare_prove(&mut random, &prove));
        outcomes[1].add_answer(&compare_check(&mut random, &check));
    }
    let [prove, check] = outcomes;
    prove.expect(&[0, 1, 2, 3, 5, 6, 7, 8, 10, 19, 20, 21], 12);
    check.expect(&[0, 1, 2, 3, 5, 6, 7, 10, 11, 12, 13, 19, 20, 21], 12);
}
