//! The challenge covers the statement: its input byte by byte, and one transcript
//! that is offered under two circuits, two y, two messages and other counts.

use reference::fips202::{sha3_256, shake256};
use reference::proof::{asked, check_answers, cover_len, instances, stretch_len};
use reference::proof::{written_answers, Counts, Header, Instance};
use reference::seeds::{drawn, Value};
use tests::calls::{Setting, COUNTS};
use tests::challenges::{compare_challenge, Challenge};
use tests::outcomes::Outcomes;
use tests::proofs::{compare_check, compare_prove, Check, Prove, HEADER, H_STAR, SALT};
use tests::random::Random;

/// 6, h*, the salt, M 300, tau 2, n 4, the circuit's digest, y of three bytes, the length
/// of the message, and the message.
const INPUT: [u8; 110] = [
    6, // the tag
    0xa0, 0xa1, 0xa2, 0xa3, 0xa4, 0xa5, 0xa6, 0xa7, 0xa8, 0xa9, 0xaa, 0xab, 0xac, 0xad, 0xae, 0xaf,
    0xb0, 0xb1, 0xb2, 0xb3, 0xb4, 0xb5, 0xb6, 0xb7, 0xb8, 0xb9, 0xba, 0xbb, 0xbc, 0xbd, 0xbe, 0xbf,
    0x60, 0x61, 0x62, 0x63, 0x64, 0x65, 0x66, 0x67, 0x68, 0x69, 0x6a, 0x6b, 0x6c, 0x6d, 0x6e, 0x6f,
    0x70, 0x71, 0x72, 0x73, 0x74, 0x75, 0x76, 0x77, 0x78, 0x79, 0x7a, 0x7b, 0x7c, 0x7d, 0x7e, 0x7f,
    44, 1, 2, 0, 4, // 300 is 1 * 256 + 44
    0x20, 0x21, 0x22, 0x23, 0x24, 0x25, 0x26, 0x27, 0x28, 0x29, 0x2a, 0x2b, 0x2c, 0x2d, 0x2e, 0x2f,
    0x30, 0x31, 0x32, 0x33, 0x34, 0x35, 0x36, 0x37, 0x38, 0x39, 0x3a, 0x3b, 0x3c, 0x3d, 0x3e, 0x3f,
    0xf5, 0x01, 0x00, // y
    3, 0, b'o', b'r', b'd', // the message
];

/// What Python's hashlib draws from this input.
const KNOWN: [(u16, u8); 2] = [(9, 1), (19, 2)];

#[test]
fn the_input_byte_by_byte() {
    let call = Challenge {
        counts: [300, 2, 4],
        h_star: INPUT[1..33].to_vec(),
        salt: INPUT[33..65].to_vec(),
        circuit_digest: INPUT[70..102].to_vec(),
        y: INPUT[102..105].to_vec(),
        message: INPUT[107..].to_vec(),
        out_len: 6,
    };
    let mut stream = [0; 18];
    shake256(&INPUT, &mut stream);
    assert_eq!(drawn(call.counts, &stream), KNOWN);
    let out = compare_challenge(&mut Random::new(1), &call);
    assert_eq!(out, Ok(packed(&KNOWN)));
}

/// As the challenge is filled: the number, lower byte first, and the party.
fn packed(chosen: &[(u16, u8)]) -> Vec<u8> {
    let bytes = chosen
        .iter()
        .map(|&(j, p)| [(j % 256) as u8, (j / 256) as u8, p]);
    bytes.flatten().collect()
}

/// The input of the document, from the parts of a call.
fn input(call: &Challenge) -> Vec<u8> {
    let [m, tau, n] = call.counts;
    let len = call.message.len() as u32;
    let u16_of = |number: u32| [(number % 256) as u8, (number / 256) as u8];
    let mut input = vec![6];
    input.extend(&call.h_star);
    input.extend(&call.salt);
    input.extend([u16_of(m), u16_of(tau)].concat());
    input.push(n as u8);
    input.extend(&call.circuit_digest);
    input.extend(&call.y);
    input.extend(u16_of(len));
    input.extend(&call.message);
    input
}

/// The challenge by SHAKE256 of an input.
fn drawn_from(input: &[u8], counts: [u32; 3]) -> Vec<(u16, u8)> {
    let mut stream = vec![0; 9 * counts[1] as usize];
    shake256(input, &mut stream);
    drawn(counts, &stream)
}

#[test]
fn the_input_of_many_calls() {
    let mut random = Random::new(111);
    for n in COUNTS {
        for (m, tau) in [(2, 1), (3, 2), (255, 254), (256, 1), (257, 256), (512, 511)] {
            for (y, message) in [(1, 0), (1, 255), (2, 256), (31, 257), (32, 4096)] {
                let call = Challenge::any(&mut random, [m, tau, n], y, message);
                let expected = packed(&drawn_from(&input(&call), call.counts));
                let out = compare_challenge(&mut random, &call);
                assert_eq!(out, Ok(expected), "{}", call.shown());
            }
        }
    }
}

/// Bytes that move from y to the message make another challenge; so does each bit of
/// what is lent.
#[test]
fn every_part_counts() {
    let mut random = Random::new(112);
    let call = Challenge::any(&mut random, [200, 90, 8], 3, 20);
    let out = compare_challenge(&mut random, &call).expect("no refusal");
    let mut is_another = |other: &Challenge| {
        let other_out = compare_challenge(&mut random, other).expect("no refusal");
        assert_ne!(other_out, out, "{}", other.shown());
    };
    type Part = fn(&mut Challenge) -> &mut Vec<u8>;
    let parts: [Part; 5] = [
        |call| &mut call.h_star,
        |call| &mut call.salt,
        |call| &mut call.circuit_digest,
        |call| &mut call.y,
        |call| &mut call.message,
    ];
    for part in parts {
        for bit in 0..8 * part(&mut call.clone()).len() {
            let mut other = call.clone();
            part(&mut other)[bit / 8] ^= 1 << (bit % 8);
            is_another(&other);
        }
    }
    let mut other = call.clone();
    other.message.insert(0, other.y[2]);
    other.y.truncate(2);
    is_another(&other);
    // h*, the salt and the digest in another order.
    for (a, b) in [(0, 1), (1, 2), (0, 2)] {
        let mut other = call.clone();
        let [first, second] = [a, b].map(|place| parts[place](&mut call.clone()).clone());
        *parts[a](&mut other) = second;
        *parts[b](&mut other) = first;
        is_another(&other);
    }
}

/// With the same h*, digest, y and message, other counts draw from another stream:
/// the first instance is not the one that the same 8 bytes would choose.
#[test]
fn counts_change_the_stream() {
    let mut random = Random::new(113);
    for [one, other] in [
        [[256, 1, 4], [512, 1, 4]],
        [[512, 1, 4], [512, 1, 8]],
        [[512, 1, 4], [512, 1, 2]],
        [[512, 1, 4], [512, 2, 4]],
    ] {
        let mut alike = 0;
        for _ in 0..64 {
            let call = Challenge::any(&mut random, one, 1, 5);
            let [first, second] = [one, other].map(|counts| {
                let call = Challenge {
                    counts,
                    out_len: 3 * counts[1] as usize,
                    ..call.clone()
                };
                compare_challenge(&mut random, &call).expect("no refusal")
            });
            // With one stream the numbers would be equal modulo 256; for two chosen, in half
            // of the calls.
            alike += usize::from(first[0] == second[0]);
        }
        assert!(alike < 16, "{one:?} and {other:?}: {alike} of 64");
    }
}

/// A challenge of h* and the message alone: 6, h*, the message's length, the
/// message. No circuit and no y stands in it.
fn hidden_without_the_statement(counts: Counts, h_star: &[u8], message: &[u8]) -> Vec<Option<u8>> {
    let mut input = vec![6];
    input.extend(h_star);
    input.extend([(message.len() % 256) as u8, (message.len() / 256) as u8]);
    input.extend(message);
    let Counts { m, tau, n } = counts;
    asked(m, &drawn_from(&input, [m, tau, n]))
}

/// The parties that the challenge of this check hides, by the input above.
fn hidden(check: &Check) -> Vec<Option<u8>> {
    let word =
        |place: usize| u32::from(check.proof[place]) + 256 * u32::from(check.proof[place + 1]);
    let call = Challenge {
        counts: [word(0), word(2), u32::from(check.proof[4])],
        h_star: check.proof[H_STAR].to_vec(),
        salt: check.proof[SALT].to_vec(),
        circuit_digest: sha3_256(&check.circuit).to_vec(),
        y: check.y.clone(),
        message: check.message.clone(),
        out_len: 0,
    };
    asked(call.counts[0], &drawn_from(&input(&call), call.counts))
}

/// The bytes of a proof whose challenge hides these parties.
fn len_of(check: &Check, hidden: &[Option<u8>]) -> usize {
    let sizes = reference::circuit::read(&check.circuit).expect("a legal circuit");
    let n = u32::from(check.proof[4]);
    let parts = hidden.iter().map(|&p| stretch_len(sizes, n, p));
    HEADER + cover_len(hidden) + parts.sum::<usize>()
}

/// The check of an honest proof under another statement: 12 exactly if the other
/// challenge asks for another length, `alike` if it happens to ask for the same
/// parties, and else a refusal all the same. Gives the refusal, and 0 for the same
/// parties.
fn offered(random: &mut Random, honest: &Check, other: &Check, alike: Result<(), u32>) -> u32 {
    assert_eq!(compare_check(random, honest), Ok(()), "{}", honest.shown());
    let answer = compare_check(random, other);
    let asks = hidden(other);
    let shown = other.shown();
    if asks == hidden(honest) {
        assert_eq!(answer, alike, "the same challenge, {shown}");
        return 0;
    }
    let refusal = answer.expect_err("another statement");
    let another_length = len_of(other, &asks) != other.proof.len();
    assert_eq!(refusal == 12, another_length, "{refusal}, {shown}");
    assert!([7, 10, 12, 13].contains(&refusal), "{refusal}, {shown}");
    refusal
}

/// All gates moved to other slots: the same gates in the same order, in another
/// file.
fn moved(setting: &Setting) -> Vec<u8> {
    let gates = setting.slots.len();
    let places: Vec<usize> = (1..=gates).map(|slot| slot % gates + 1).collect();
    setting.file.moved(&setting.slots, &places).bytes()
}

fn made(call: &Prove) -> (Value, Vec<Instance>, Header) {
    let [m, tau, n] = call.counts;
    let counts = Counts { m, tau, n };
    let root = call.root[..].try_into().expect("16 bytes");
    let salt = call.salt[..].try_into().expect("32 bytes");
    let made = instances(&call.circuit, &call.witness, root, salt, counts);
    let header = Header::of(&made, salt, counts);
    (root, made, header)
}

/// With such a challenge, one file is a proof for both circuits.
#[test]
fn without_the_statement_one_transcript_has_two_circuits() {
    let mut random = Random::new(114);
    for n in COUNTS {
        let setting = Setting::of_sizes(&mut random, [9, 3, 12], n);
        let call = Prove::of(&mut random, &setting, [20, 9], 9);
        let (root, made, header) = made(&call);
        let hidden = hidden_without_the_statement(header.counts, &header.h_star, &call.message);
        let proof = written_answers(root, &made, header, &hidden);
        let other = moved(&setting);
        assert_ne!(other, call.circuit);
        for circuit in [&call.circuit, &other] {
            let answer = check_answers(circuit, &call.y, &hidden, &proof);
            assert_eq!(answer, Ok(()), "n {n}");
        }
        // With the statement in the challenge, it is a proof for neither.
        for circuit in [&call.circuit, &other] {
            let check = Check {
                circuit: circuit.clone(),
                ..call.check(&proof)
            };
            assert!(compare_check(&mut random, &check).is_err(), "n {n}");
        }
    }
}

/// Settings whose challenges are few, so that two of them are often the same, and
/// settings whose challenges are many.
fn settings(random: &mut Random) -> Vec<(Setting, [u32; 2])> {
    let few = [([2, 1, 3], [2, 1], 2), ([8, 8, 16], [3, 1], 4)];
    let many = [
        ([9, 3, 12], [40, 13], 8),
        ([5, 1, 6], [30, 14], 16),
        ([12, 9, 9], [60, 20], 2),
    ];
    let all = [few.repeat(120), many.repeat(8)].concat();
    all.into_iter()
        .map(|(sizes, counts, n)| (Setting::of_sizes(random, sizes, n), counts))
        .collect()
}

/// Offers honest proofs under these other statements.
fn offer(
    random: &mut Random,
    alike: Result<(), u32>,
    others: impl Fn(&Setting, &Check) -> Vec<Check>,
) {
    let mut outcomes = Outcomes::default();
    for (setting, counts) in settings(random) {
        let call = Prove::of(random, &setting, counts, 9);
        let honest = call.check(&call.by_reference().expect("proved"));
        for other in others(&setting, &honest) {
            outcomes.add(offered(random, &honest, &other, alike));
        }
    }
    outcomes.expect(&[0, 7, 10, 12, 13], 3);
}

#[test]
fn one_transcript_under_two_circuits() {
    offer(&mut Random::new(115), Ok(()), |setting, honest| {
        let circuit = moved(setting);
        vec![Check {
            circuit,
            ..honest.clone()
        }]
    });
}

#[test]
fn one_transcript_under_two_outputs() {
    offer(&mut Random::new(120), Err(10), |setting, honest| {
        let others = (0..setting.sizes.outputs).map(|output| {
            let mut other = honest.clone();
            other.y[output / 8] ^= 1 << (output % 8);
            other
        });
        others.collect()
    });
}

#[test]
fn one_transcript_under_two_messages() {
    offer(&mut Random::new(117), Ok(()), |_, honest| {
        let mut other = honest.clone();
        other.message[8] ^= 1;
        vec![other]
    });
}

/// Two files of the same gates: one h*, and two challenges.
#[test]
fn proofs_of_one_transcript() {
    let mut random = Random::new(119);
    for n in COUNTS {
        let setting = Setting::of_sizes(&mut random, [9, 3, 12], n);
        let one = Prove::of(&mut random, &setting, [40, 13], 9);
        let other = Prove {
            circuit: moved(&setting),
            ..one.clone()
        };
        let [one, other] = [one, other].map(|call| {
            let proof = compare_prove(&mut random, &call).expect("proved");
            call.check(&proof)
        });
        assert_eq!(one.proof[..HEADER], other.proof[..HEADER], "n {n}");
        assert_ne!(hidden(&one), hidden(&other), "n {n}");
    }
}

/// The header with other counts. A chosen instance has 2 siblings of 16 bytes, com_p
/// of 32, and 16 bytes each of masked inputs and of outputs: 96, which are those of
/// two that are not chosen and of two opened nodes. So other counts have the same
/// length where as many more nodes are opened.
#[test]
fn one_transcript_under_other_counts() {
    let mut random = Random::new(118);
    let mut outcomes = Outcomes::default();
    for _ in 0..40 {
        let setting = Setting::of_sizes(&mut random, [128, 128, 0], 4);
        let call = Prove::of(&mut random, &setting, [20, 9], 9);
        let honest = call.check(&call.by_reference().expect("proved"));
        for (m, tau, n) in [
            (21, 8, 4),
            (19, 10, 4),
            (21, 9, 4),
            (20, 8, 4),
            (20, 9, 2),
            (20, 9, 8),
        ] {
            let mut other = honest.clone();
            other.proof[..5].copy_from_slice(&[m, 0, tau, 0, n]);
            let refusal = offered(&mut random, &honest, &other, Ok(()));
            assert!([10, 12].contains(&refusal), "{}", other.shown());
            outcomes.add(refusal);
        }
    }
    outcomes.expect(&[10, 12], 10);
}
