//! Two circuits joined: the file by both implementations, the order of refusals, what the
//! joined circuit gives, and its proofs and showings.

use reference::bits::{get, put};
use reference::circuit::{evaluate, read, Sizes};
use tests::builders::compare_join;
use tests::calls::{any_bits, Call, Setting, COUNTS};
use tests::circuits::{
    any_sizes, any_slots, damaged, faults_of_five, fields, legal, row_of_gates, with, File, FIVE, K,
};
use tests::outcomes::Outcomes;
use tests::partners::{check_partners, partners};
use tests::proofs::{compare_check, compare_prove, Prove};
use tests::random::Random;
use wivulameno::circuit::{join, join_to_vec};
use wivulameno::Refusal;

/// Two inputs; the outputs are both, the second first. No gates.
const WIRES: [u8; 24] = fields([2, 2, 0, 0, 1, 0]);

/// Two inputs; slot 2 is NOT 1 (wire 3), slot 1 is 3 AND 0 (wire 2), in this order. The
/// outputs are wire 3, input 0 and wire 2.
const TWO: [u8; 60] = fields([
    2, 3, 2, 2, 3, 0, 2, // head and outputs
    2, 3, 0, 0, // slot 1
    3, 1, 0, 1, // slot 2
]);

/// The joined file by both, with more than enough room.
fn joined(random: &mut Random, first: &[u8], second: &[u8]) -> Result<Vec<u8>, u32> {
    let room = first.len() + second.len() + random.below(9);
    let (mut file, len) = compare_join(random, first, second, room)?;
    file.truncate(len);
    assert_eq!(join_to_vec(first, second), Ok(file.clone()));
    Ok(file)
}

#[test]
fn by_hand() {
    let known: [(&[u8], &[u8], Vec<u32>); 6] = [
        (
            &K,
            &TWO,
            vec![
                2, 4, 3, 1, 2, 4, 0, 3, // head and outputs
                2, 0, 1, 3, // slot 1
                2, 4, 0, 0, // slot 2
                3, 1, 0, 2, // slot 3
            ],
        ),
        (
            &TWO,
            &K,
            vec![
                2, 4, 3, 2, 3, 0, 2, 4, // head and outputs
                2, 3, 0, 3, // slot 1
                3, 1, 0, 1, // slot 2
                2, 0, 1, 0, // slot 3
            ],
        ),
        (
            &TWO,
            &TWO,
            vec![
                2, 6, 4, 2, 3, 0, 2, 5, 0, 4, // head and outputs
                2, 3, 0, 4, // slot 1
                3, 1, 0, 1, // slot 2
                2, 5, 0, 0, // slot 3
                3, 1, 0, 3, // slot 4
            ],
        ),
        (
            &WIRES,
            &K,
            vec![2, 3, 1, 1, 1, 0, 2, /* slot 1 */ 2, 0, 1, 0],
        ),
        (
            &K,
            &WIRES,
            vec![2, 3, 1, 1, 2, 1, 0, /* slot 1 */ 2, 0, 1, 0],
        ),
        (&WIRES, &WIRES, vec![2, 4, 0, 0, 1, 0, 1, 0]),
    ];
    let mut random = Random::new(1);
    for (first, second, words) in known {
        let expected: Vec<u8> = words.iter().flat_map(|word| word.to_le_bytes()).collect();
        assert_eq!(joined(&mut random, first, second), Ok(expected));
    }
}

/// Both circuits in one buffer.
#[test]
fn with_itself() {
    let mut random = Random::new(2);
    for circuit in [&K[..], &TWO, &WIRES, &FIVE] {
        let expected = joined(&mut random, circuit, circuit).expect("joined");
        let buffer = circuit.to_vec();
        let mut out = vec![0x5a; 2 * circuit.len()];
        assert_eq!(join(&buffer, &buffer, &mut out), Ok(expected.len()));
        assert_eq!(out[..expected.len()], expected);
        assert_eq!(out[expected.len()..], [0x5a; 16]);
        assert_eq!(buffer, circuit);
    }
}

/// Exactly as long, longer, and every shorter length.
#[test]
fn the_output_comes_last() {
    let mut random = Random::new(3);
    let len = 2 * FIVE.len() - 16;
    for short in 0..len {
        let answer = compare_join(&mut random, &FIVE, &FIVE, short);
        assert_eq!(answer, Err(6), "{short}");
    }
    for room in [len, len + 1, len + 16, 4096] {
        let (out, written) = compare_join(&mut random, &FIVE, &FIVE, room).expect("room");
        assert_eq!((out.len(), written), (room, len));
    }
}

/// A file without gates that has so many outputs.
fn of_outputs(inputs: u32, outputs: usize) -> Vec<u8> {
    let mut file = row_of_gates(0);
    file.counts = [inputs, outputs as u32, 0];
    file.outputs = vec![inputs - 1; outputs];
    file.bytes()
}

#[test]
fn the_most_outputs() {
    let mut random = Random::new(4);
    for first in [1, 100, 128, 255] {
        let one = of_outputs(3, first);
        let most = of_outputs(3, 256 - first);
        let more = of_outputs(3, 257 - first);
        let file = joined(&mut random, &one, &most).expect("joined");
        assert_eq!(read(&file).map(|sizes| sizes.outputs), Ok(256));
        assert_eq!(compare_join(&mut random, &one, &more, 4096), Err(2));
    }
    let most = of_outputs(3, 256);
    assert_eq!(compare_join(&mut random, &most, &most, 4096), Err(2));
}

#[test]
fn the_most_gates() {
    let mut random = Random::new(5);
    for first in [0, 1, 40_000, 99_999, 100_000] {
        let one = row_of_gates(first).bytes();
        let most = row_of_gates(100_000 - first).bytes();
        let file = joined(&mut random, &one, &most).expect("joined");
        assert_eq!(read(&file).map(|sizes| sizes.gates), Ok(100_000));
    }
    for [first, second] in [[1, 100_000], [100_000, 1], [50_000, 50_001], [100_000; 2]] {
        let files = [first, second].map(|gates| row_of_gates(gates).bytes());
        let answer = compare_join(&mut random, &files[0], &files[1], 3_300_000);
        assert_eq!(answer, Err(2), "{first} and {second}");
    }
}

/// A fault of the first circuit comes before one of the second, and both before 25.
#[test]
fn damaged_circuits_come_first() {
    let mut random = Random::new(6);
    for (number, damaged) in faults_of_five() {
        for (second_number, second) in faults_of_five() {
            let answer = compare_join(&mut random, &damaged, &second, 400);
            assert_eq!(answer, Err(number), "and {second_number}");
        }
        // Five inputs and two; no room.
        for room in [0, 400] {
            for good in [&FIVE[..], &K] {
                let answers = [(&damaged[..], good), (good, &damaged[..])]
                    .map(|(first, second)| compare_join(&mut random, first, second, room));
                assert_eq!(answers, [Err(number), Err(number)]);
            }
        }
    }
}

/// 25 before 2 before 6.
#[test]
fn the_last_three_in_order() {
    let mut random = Random::new(7);
    let with_inputs = |file: &[u8], inputs| with(file, &[(0, inputs)]);
    let most = [of_outputs(1, 256), row_of_gates(100_000).bytes()];
    for [first, second] in [[0, 0], [0, 1], [1, 0], [1, 1]] {
        let [first, second] = [&most[first], &most[second]];
        let other = with_inputs(second, 2);
        assert!(read(&other).is_ok());
        for room in [0, 4_000_000] {
            assert_eq!(compare_join(&mut random, first, &other, room), Err(25));
            assert_eq!(compare_join(&mut random, &other, first, room), Err(25));
            assert_eq!(compare_join(&mut random, first, second, room), Err(2));
        }
    }
    for room in [0, 55] {
        assert_eq!(compare_join(&mut random, &K, &FIVE, room), Err(25));
        assert_eq!(compare_join(&mut random, &K, &K, room), Err(6));
    }
}

/// Sizes of two circuits with the same inputs, whose sums are within the limits.
fn any_pair_of_sizes(random: &mut Random) -> [[usize; 3]; 2] {
    loop {
        let [first, mut second] = [any_sizes(random), any_sizes(random)];
        second[0] = first[0];
        if first[1] + second[1] <= 256 {
            return [first, second];
        }
    }
}

/// Two legal circuits with the same inputs.
fn any_pair(random: &mut Random) -> [(File, Vec<usize>); 2] {
    any_pair_of_sizes(random).map(|sizes| {
        let slots = any_slots(random, sizes[2]);
        (legal(random, sizes, &slots), slots)
    })
}

fn outputs(circuit: &[u8], witness: &[u8], sizes: Sizes) -> Vec<u8> {
    let mut y = vec![0xa5; sizes.y_len()];
    assert_eq!(evaluate(circuit, witness, &mut y), Ok(()));
    let mut ours = vec![0x5a; sizes.y_len()];
    let answer = wivulameno::circuit::evaluate(circuit, witness, &mut ours);
    assert_eq!((answer, &ours), (Ok(()), &y));
    y
}

/// The first's outputs and then the second's, as bits.
fn side_by_side(sizes: [Sizes; 2], ys: [&[u8]; 2]) -> Vec<u8> {
    let count = sizes[0].outputs + sizes[1].outputs;
    let mut y = vec![0; count.div_ceil(8)];
    for place in 0..count {
        let bit = match place.checked_sub(sizes[0].outputs) {
            None => get(ys[0], place),
            Some(place) => get(ys[1], place),
        };
        put(&mut y, place, bit);
    }
    y
}

/// The sums of the sizes, and both evaluations side by side.
#[test]
fn every_legal_pair() {
    let mut random = Random::new(8);
    let mut without_gates = 0;
    for _ in 0..2_000 {
        let [first, second] = any_pair(&mut random).map(|(file, _)| file.bytes());
        let file = joined(&mut random, &first, &second).expect("joined");
        let [one, other, both] = [&first, &second, &file].map(|file| read(file).expect("legal"));
        assert_eq!(both.inputs, one.inputs);
        assert_eq!(both.outputs, one.outputs + other.outputs);
        assert_eq!(both.gates, one.gates + other.gates);
        assert_eq!(both.ands, one.ands + other.ands);
        without_gates += usize::from(one.gates == 0 || other.gates == 0);
        for _ in 0..3 {
            let witness = any_bits(&mut random, one.inputs);
            let ys = [(&first, one), (&second, other)]
                .map(|(circuit, sizes)| outputs(circuit, &witness, sizes));
            let expected = side_by_side([one, other], [&ys[0], &ys[1]]);
            assert_eq!(outputs(&file, &witness, both), expected);
        }
    }
    assert!(without_gates > 50, "{without_gates}");
}

/// Three circuits are joined in one way only.
#[test]
fn three_circuits() {
    let mut random = Random::new(9);
    for _ in 0..300 {
        let circuits = [(); 3].map(|()| {
            let gates = random.below(30);
            let slots = any_slots(&mut random, gates);
            legal(&mut random, [5, 3, gates], &slots).bytes()
        });
        let [a, b, c] = &circuits;
        let front = joined(&mut random, a, b).expect("joined");
        let back = joined(&mut random, b, c).expect("joined");
        let left = joined(&mut random, &front, c);
        assert_eq!(left, joined(&mut random, a, &back));
    }
}

/// One of the two is damaged, or both, or neither; inputs may differ, room may lack.
#[test]
fn damaged_files() {
    let mut random = Random::new(10);
    let mut outcomes = Outcomes::default();
    for _ in 0..8_000 {
        let pair = any_pair(&mut random);
        let is_damaged = random.pick(&[[true, false], [false, true], [true, true], [false; 2]]);
        let mut place = 0;
        let [first, mut second] = pair.map(|(file, slots)| {
            place += 1;
            match is_damaged[place - 1] {
                true => damaged(&mut random, &file, &slots),
                false => file.bytes(),
            }
        });
        if random.once_in(12) {
            second = of_outputs(random.from_to(1, 512) as u32, 7);
        }
        let len = (first.len() + second.len()).saturating_sub(16);
        let room = random.pick(&[len, len, len, len + 1, len.saturating_sub(1), 0]);
        outcomes.add_answer(&compare_join(&mut random, &first, &second, room));
    }
    outcomes.expect(&[0, 1, 2, 3, 5, 6, 19, 20, 21, 25], 50);
}

/// A joined circuit is proved for both outputs at once, and for no others.
#[test]
fn proofs() {
    let mut random = Random::new(11);
    for n in COUNTS {
        let [first, second] = [[9, 3, 30], [9, 6, 21]].map(|sizes| {
            let slots = any_slots(&mut random, sizes[2]);
            legal(&mut random, sizes, &slots).bytes()
        });
        let file = joined(&mut random, &first, &second).expect("joined");
        let setting = Setting::of_circuit(&mut random, &file, n);
        let mut call = Prove::of(&mut random, &setting, [7, 3], 9);
        let sizes = [&first, &second].map(|file| read(file).expect("legal"));
        let ys = [0, 1].map(|k| outputs([&first, &second][k], &call.witness, sizes[k]));
        assert_eq!(call.y, side_by_side(sizes, [&ys[0], &ys[1]]));
        let proof = compare_prove(&mut random, &call).expect("proved");
        let mut check = call.check(&proof);
        assert_eq!(compare_check(&mut random, &check), Ok(()));
        // Another output of the second circuit.
        check.y[1] ^= 1;
        assert!(compare_check(&mut random, &check).is_err());
        call.y[1] ^= 1;
        assert_eq!(compare_prove(&mut random, &call), Err(10));
    }
}

/// Witnesses that are equal in both outputs show the same of the joined circuit, with
/// exactly one row of the hidden party for each; with another output of one circuit
/// there is none.
#[test]
fn showings() {
    let mut random = Random::new(12);
    let [mut same, mut different, mut with_and] = [0; 3];
    while same < 40 || different < 10 {
        let inputs = random.from_to(2, 4);
        let [first, second] = [(); 2].map(|()| {
            let sizes = [inputs, random.from_to(1, 2), random.from_to(0, 3)];
            let slots = any_slots(&mut random, sizes[2]);
            legal(&mut random, sizes, &slots).bytes()
        });
        let file = joined(&mut random, &first, &second).expect("joined");
        let n = random.pick(&COUNTS);
        let setting = Setting::of_circuit(&mut random, &file, n);
        let other = any_bits(&mut random, inputs);
        if setting.sizes.ands > 2 || other == setting.witness {
            continue;
        }
        let equal = [&first, &second].map(|circuit| {
            let sizes = read(circuit).expect("legal");
            outputs(circuit, &setting.witness, sizes) == outputs(circuit, &other, sizes)
        });
        for p in [random.below(n as usize) as u32, n - 1] {
            if equal == [true, true] {
                check_partners(Call::by_library, &setting, &other, p);
            } else {
                let pairs = partners(Call::by_library, &setting, &other, p);
                assert!(pairs.iter().all(|(_, partners)| partners.is_empty()));
            }
        }
        same += usize::from(equal == [true, true]);
        with_and += usize::from(equal == [true, true] && setting.sizes.ands > 0);
        different += usize::from(equal.contains(&true) && equal.contains(&false));
    }
    assert!(with_and > 10, "{with_and} of {same}");
}

#[test]
fn no_room_is_told_by_its_name() {
    assert_eq!(join(&K, &K, &mut [0; 55]), Err(Refusal::Length));
    assert_eq!(join_to_vec(&K, &FIVE), Err(Refusal::InputCounts));
}
