//! Random statements against whole numbers: what a circuit gives for a row is what the
//! statement says of the row's numbers, in both implementations.

mod asked;

use asked::{asked, bits_of, ones, written, Asked, SIGNS};
use statement::build;
use tests::random::Random;

/// Numbers one behind the other, lowest bit first.
fn packed(numbers: &[(u128, u32)]) -> Vec<u8> {
    let bits = numbers
        .iter()
        .flat_map(|&(number, width)| (0..width).map(move |place| (number >> place & 1) as u8));
    let bits: Vec<u8> = bits.collect();
    let byte = |bits: &[u8]| bits.iter().rev().fold(0, |byte, bit| 2 * byte + bit);
    bits.chunks(8).map(byte).collect()
}

/// A row, with numbers at the edges and numbers that are close to each other.
fn row(random: &mut Random, asked: &Asked) -> Vec<u128> {
    let mut row: Vec<u128> = vec![];
    for &width in &asked.widths {
        let any = u128::from(random.word()) << 64 | u128::from(random.word());
        let last = row.last().copied().unwrap_or(0);
        let number = match random.below(8) {
            0 => 0,
            1 => u128::MAX,
            2 => last,
            3 => last.wrapping_add(1),
            4 => last.wrapping_sub(1),
            _ => any,
        };
        row.push(number & ones(width));
    }
    row
}

/// Holds the circuit of a text against the whole numbers, for some rows.
fn compare(random: &mut Random, asked: &Asked, text: &str) {
    let built = build(text.as_bytes()).unwrap_or_else(|fault| panic!("{fault}\n{text}"));
    let sizes = reference::circuit::read(&built.circuit).expect("a legal circuit");
    let ands = asked.ands();
    assert!(
        sizes.ands as u32 <= ands,
        "{} and {ands}\n{text}",
        sizes.ands
    );
    for _ in 0..12 {
        let row = row(random, asked);
        let fields: Vec<(u128, u32)> = row.iter().copied().zip(asked.widths.clone()).collect();
        let witness = packed(&fields);
        let expected = packed(&asked.outputs(&row));
        let mut y = vec![0xff; expected.len()];
        let answer = reference::circuit::evaluate(&built.circuit, &witness, &mut y);
        assert_eq!(answer, Ok(()), "{text}");
        assert_eq!(y, expected, "{row:?}\n{text}");
        y.fill(0xff);
        let answer = wivulameno::circuit::evaluate(&built.circuit, &witness, &mut y);
        assert_eq!(answer, Ok(()), "{text}");
        assert_eq!(y, expected, "{row:?}\n{text}");
    }
}

#[test]
fn statements_say_what_numbers_say() {
    let mut random = Random::new(31);
    let [mut built, mut too_wide, mut too_many] = [0; 3];
    for _ in 0..4_000 {
        let asked = asked(&mut random);
        let text = written(&asked, &mut random);
        if !asked.fits() {
            let fault = build(text.as_bytes()).expect_err("a sum is too wide").text;
            assert_eq!(fault, "this sum can have more than 128 bits", "{text}");
            too_wide += 1;
            continue;
        }
        let zeros = vec![0; asked.widths.len()];
        let outputs: u32 = asked.outputs(&zeros).iter().map(|(_, width)| width).sum();
        if outputs > 256 {
            let fault = build(text.as_bytes()).expect_err("too many outputs").text;
            assert!(
                fault.ends_with("bits are shown with this, at most 256"),
                "{text}"
            );
            too_many += 1;
            continue;
        }
        compare(&mut random, &asked, &text);
        built += 1;
    }
    let enough = built > 3_000 && too_wide > 5 && too_many > 5;
    assert!(enough, "{built}, {too_wide}, {too_many}");
}

/// Two fields of up to four bits, every pair of numbers, every comparison, and the sum.
#[test]
fn every_small_pair() {
    for (wide, narrow) in [(1, 1), (2, 1), (3, 3), (4, 2), (2, 4), (4, 4)] {
        let mut text = format!("row a: {wide}, b: {narrow}\nshow sum = a + b");
        for (place, sign) in SIGNS.iter().enumerate() {
            text += &format!(", c{place} = a {sign} b");
        }
        let built = build(text.as_bytes()).expect("a statement");
        let sum_width = bits_of(ones(wide) + ones(narrow));
        for a in 0..1_u128 << wide {
            for b in 0..1_u128 << narrow {
                let answers = [a < b, a <= b, a > b, a >= b, a == b, a != b];
                let mut outputs = vec![(a + b, sum_width)];
                outputs.extend(answers.map(|answer| (u128::from(answer), 1)));
                let expected = packed(&outputs);
                let mut y = vec![0; expected.len()];
                let witness = packed(&[(a, wide), (b, narrow)]);
                let answer = reference::circuit::evaluate(&built.circuit, &witness, &mut y);
                assert_eq!((answer, &y), (Ok(()), &expected), "{a} and {b}: {text}");
            }
        }
    }
}

/// Every range of numbers of three bits, alone and beside a second one, on every number.
#[test]
fn every_small_list() {
    let ranges = (0..8_u128).flat_map(|low| (low..9).map(move |high| (low, high)));
    let ranges: Vec<(u128, u128)> = ranges.collect();
    for first in &ranges {
        for second in &ranges {
            let text = format!(
                "row a: 3 show found = a in ({} to {}, {} to {})",
                first.0, first.1, second.0, second.1
            );
            let built = build(text.as_bytes()).expect("a statement");
            for a in 0..8_u8 {
                let found = [first, second]
                    .iter()
                    .any(|range| (range.0..=range.1).contains(&u128::from(a)));
                let mut y = [7];
                let answer = reference::circuit::evaluate(&built.circuit, &[a], &mut y);
                assert_eq!((answer, y), (Ok(()), [found.into()]), "{a}: {text}");
            }
        }
    }
}

/// Texts with characters and parts that were taken out, doubled or changed: a fault, or a legal
/// circuit.
#[test]
fn damaged_texts_are_faults_or_statements() {
    let mut random = Random::new(33);
    let parts = [
        "(", ")", "show ", "row ", "let ", " in ", "not ", ",", "=", "0", "7", "f0", "+",
    ];
    let [mut faults, mut statements] = [0; 2];
    for _ in 0..6_000 {
        let asked = asked(&mut random);
        let mut text: Vec<char> = written(&asked, &mut random).chars().collect();
        for _ in 0..random.from_to(1, 3) {
            let place = random.below(text.len());
            let end = (place + random.below(6)).min(text.len());
            let part: Vec<char> = match random.below(3) {
                0 => vec![],
                1 => text[place..end].repeat(2),
                _ => random.pick(&parts).chars().collect(),
            };
            text.splice(place..end, part);
        }
        let text: String = text.into_iter().collect();
        match build(text.as_bytes()) {
            Err(fault) => {
                let lines: Vec<&str> = text.split('\n').collect();
                let columns = lines[fault.place.line - 1].chars().count();
                assert!(fault.place.column <= columns + 1, "{fault}\n{text}");
                faults += 1;
            }
            Ok(built) => {
                let sizes = wivulameno::circuit::sizes(&built.circuit).expect("a legal circuit");
                assert_eq!(sizes.inputs, built.row.bits(), "{text}");
                assert_eq!(sizes.outputs, built.y.bits(), "{text}");
                statements += 1;
            }
        }
    }
    assert!(faults > 1_000 && statements > 500, "{faults}, {statements}");
}
