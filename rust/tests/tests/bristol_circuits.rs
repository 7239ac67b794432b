//! Circuits in the format's own shape: an adder, a comparator and a multiplier,
//! with groups, evaluated by the library and compared with integers.

use reference::bits::{get, put};
use tests::bristol::{adder, comparator, converted, multiplier};
use tests::random::Random;

/// A converted text.
struct Circuit {
    text: String,
    file: Vec<u8>,
    inputs: usize,
    outputs: usize,
}

impl Circuit {
    fn of(random: &mut Random, text: String) -> Circuit {
        let file = converted(random, text.as_bytes()).expect("a good text");
        let sizes = wivulameno::circuit::sizes(&file).expect("a circuit");
        Circuit {
            text,
            file,
            inputs: sizes.inputs as usize,
            outputs: sizes.outputs as usize,
        }
    }

    /// The outputs as a number, by the library; the text itself gives the same.
    fn outputs(&self, numbers: [u64; 2]) -> u128 {
        let width = self.inputs / 2;
        let bit = |place: usize| numbers[place / width] >> (place % width) & 1 != 0;
        let inputs: Vec<bool> = (0..self.inputs).map(bit).collect();
        let mut witness = vec![0; self.inputs.div_ceil(8)];
        for (place, &bit) in inputs.iter().enumerate() {
            put(&mut witness, place, bit);
        }
        let mut y = vec![0xff; self.outputs.div_ceil(8)];
        let answer = wivulameno::circuit::evaluate(&self.file, &witness, &mut y);
        assert_eq!(answer, Ok(()));
        let given: Vec<bool> = (0..self.outputs).map(|place| get(&y, place)).collect();
        let by_text = reference::bristol::evaluate(&self.text, &inputs);
        assert_eq!(given, by_text, "{numbers:?}");
        let bits = given.iter().enumerate();
        bits.map(|(place, &bit)| u128::from(bit) << place).sum()
    }
}

/// Numbers of so many bits: the ends, and any.
fn pairs(random: &mut Random, bits: u32) -> Vec<[u64; 2]> {
    let most = u64::MAX >> (64 - bits);
    let ends = [0, 1, 2, most / 2, most / 2 + 1, most - 1, most];
    let mut pairs: Vec<[u64; 2]> = ends
        .iter()
        .flat_map(|&a| ends.iter().map(move |&b| [a, b]))
        .collect();
    for _ in 0..150 {
        let [a, b] = [random.word() & most, random.word() & most];
        let near = (a ^ 1 << random.below(bits as usize)) & most;
        pairs.extend([[a, b], [a, a], [a, near]]);
    }
    pairs
}

#[test]
fn sums_of_64_bits() {
    let mut random = Random::new(0xb1);
    let circuit = Circuit::of(&mut random, adder(64));
    assert!(circuit.text.contains("\n2 64 64\n1 64\n\n"));
    for [a, b] in pairs(&mut random, 64) {
        let sum = u128::from(a.wrapping_add(b));
        assert_eq!(circuit.outputs([a, b]), sum, "{a} + {b}");
    }
}

/// Bit 0 is less, bit 1 is equal.
#[test]
fn comparisons_of_64_bits() {
    let mut random = Random::new(0xb2);
    let circuit = Circuit::of(&mut random, comparator(64));
    assert!(circuit.text.contains("\n2 64 64\n2 1 1\n\n"));
    for [a, b] in pairs(&mut random, 64) {
        let expected = u128::from(a < b) + 2 * u128::from(a == b);
        assert_eq!(circuit.outputs([a, b]), expected, "{a} and {b}");
    }
}

#[test]
fn products_of_16_bits() {
    let mut random = Random::new(0xb3);
    let circuit = Circuit::of(&mut random, multiplier(16));
    assert!(circuit.text.contains("\n2 16 16\n1 32\n\n"));
    for [a, b] in pairs(&mut random, 16) {
        let product = u128::from(a) * u128::from(b);
        assert_eq!(circuit.outputs([a, b]), product, "{a} times {b}");
    }
}

/// All pairs of three bits.
#[test]
fn every_small_sum_comparison_and_product() {
    let mut random = Random::new(0xb4);
    let [sums, comparisons, products] =
        [adder(3), comparator(3), multiplier(3)].map(|text| Circuit::of(&mut random, text));
    for a in 0..8 {
        for b in 0..8 {
            assert_eq!(sums.outputs([a, b]), u128::from((a + b) % 8));
            let expected = u128::from(a < b) + 2 * u128::from(a == b);
            assert_eq!(comparisons.outputs([a, b]), expected);
            assert_eq!(products.outputs([a, b]), u128::from(a * b));
        }
    }
}

/// A proof of a converted circuit is made and checked: 20 + 22 is 42.
#[test]
fn a_proof_of_a_converted_circuit() {
    use wivulameno::proof::{check, longest_proof, prove, Counts, Statement};
    let circuit = Circuit::of(&mut Random::new(0xb5), adder(8));
    let counts = Counts { m: 4, tau: 2, n: 4 };
    let sizes = wivulameno::circuit::sizes(&circuit.file).expect("a circuit");
    let mut proof = vec![0; longest_proof(sizes, counts).expect("legal counts")];
    let statement = Statement {
        circuit: &circuit.file,
        y: &[42],
        message: b"order",
    };
    let mut work = wivulameno::Work::for_circuit(statement.circuit).expect("a circuit");
    let len = prove(
        statement,
        &[20, 22],
        &[7; 16],
        &[9; 32],
        counts,
        &mut proof,
        &mut work,
    );
    let len = len.expect("proved");
    assert_eq!(check(statement, &proof[..len], &mut work), Ok(()));
    let wrong = prove(
        statement,
        &[20, 23],
        &[7; 16],
        &[9; 32],
        counts,
        &mut proof,
        &mut work,
    );
    assert_eq!(wrong, Err(wivulameno::Refusal::Output));
}
