//! Makes circuits that compare two numbers.

const XOR: u32 = 1;
const AND: u32 = 2;
const INV: u32 = 3;

/// A circuit whose witness is a number a and then a number b, of `width` bits
/// each, lowest bit first. Output 0 is 1 if a is at least b. If `telling`, the
/// bits of b follow as outputs, so that the claimed output says which b.
pub fn at_least(width: u16, telling: bool) -> Vec<u8> {
    let width = width.into();
    let (gates, answer) = gates(width);
    let mut outputs = vec![answer];
    if telling {
        outputs.extend(width..2 * width);
    }
    file(2 * width, &outputs, &gates)
}

/// The gates in order, each with its kind and two wires, and the answer's wire.
///
/// The borrow of a - b goes from bit to bit: where the bits differ it becomes
/// that of b, else it stays. That is one AND for each bit:
/// borrow ^ ((a ^ b) & (b ^ borrow)).
fn gates(width: u32) -> (Vec<(u32, u32, u32)>, u32) {
    let mut gates = vec![];
    let mut gate = |kind, a, b| {
        gates.push((kind, a, b));
        2 * width + gates.len() as u32 - 1
    };
    let differ = gate(XOR, 0, width);
    let mut borrow = gate(AND, differ, width);
    for bit in 1..width {
        let b = width + bit;
        let differ = gate(XOR, bit, b);
        let change = gate(XOR, b, borrow);
        let change = gate(AND, differ, change);
        borrow = gate(XOR, borrow, change);
    }
    let answer = gate(INV, borrow, 0);
    (gates, answer)
}

/// The circuit file of gates that stand in chain order.
fn file(inputs: u32, outputs: &[u32], gates: &[(u32, u32, u32)]) -> Vec<u8> {
    let mut words = vec![inputs, outputs.len() as u32, gates.len() as u32, 1];
    words.extend(outputs);
    for (slot, &(kind, a, b)) in gates.iter().enumerate() {
        let next = (slot + 2) % (gates.len() + 1);
        words.extend([kind, a, b, next as u32]);
    }
    words.iter().flat_map(|word| word.to_le_bytes()).collect()
}

/// The witness: the two numbers, packed.
pub fn row(width: u16, a: u64, b: u64) -> Vec<u8> {
    let both = u128::from(a) | u128::from(b) << width;
    let len = usize::from(2 * width).div_ceil(8);
    both.to_le_bytes()[..len].to_vec()
}

/// The output in which a is at least b, and b is told.
pub fn covered(width: u16, b: u64) -> Vec<u8> {
    let bits = 1 | u128::from(b) << 1;
    let len = usize::from(width + 1).div_ceil(8);
    bits.to_le_bytes()[..len].to_vec()
}

#[cfg(test)]
mod tests {
    use super::*;

    #[test]
    fn the_examples_are_these() {
        let examples: [(u16, &[u8], &[u8]); 2] = [
            (
                16,
                include_bytes!("../../../examples/covers16.circuit"),
                include_bytes!("../../../examples/covers16.row"),
            ),
            (
                32,
                include_bytes!("../../../examples/covers32.circuit"),
                include_bytes!("../../../examples/covers32.row"),
            ),
        ];
        let rows = [row(16, 1000, 250), row(32, 3_000_000_000, 2_999_999_999)];
        for ((width, circuit, example), row) in examples.into_iter().zip(rows) {
            assert_eq!(at_least(width, true), circuit);
            assert_eq!(row, example);
        }
    }

    /// The example `fresh` has the number that it tells, today, in front.
    #[test]
    fn the_row_is_fresh() {
        let circuit = include_bytes!("../../../examples/fresh.circuit");
        assert_eq!(
            include_bytes!("../../../examples/fresh.row")[..],
            row(16, 20_000, 20_045)
        );
        for (today, date) in [(20_000, 20_045), (20_000, 20_000), (20_001, 20_000)] {
            let mut y = [0; 3];
            let answer = wivulameno::circuit::evaluate(circuit, &row(16, today, date), &mut y);
            assert_eq!(answer, Ok(()));
            assert_eq!(y[..] == covered(16, today), date >= today, "{today} {date}");
        }
    }

    /// Without its bits among the outputs, anybody could fill in an order.
    #[test]
    fn without_telling_there_is_one_output() {
        let sizes = wivulameno::circuit::read(&at_least(16, false));
        assert_eq!(sizes, Ok([32, 1, 63, 16]));
    }

    /// By hand: 1 and then 250 in 16 bits, lowest first, is 501 in 17 bits.
    #[test]
    fn an_order_of_250() {
        assert_eq!(covered(16, 250), [0xf5, 0x01, 0x00]);
    }

    #[test]
    fn all_pairs_of_three_bits() {
        let circuit = at_least(3, true);
        assert_eq!(wivulameno::circuit::read(&circuit), Ok([6, 4, 11, 3]));
        for a in 0..8 {
            for b in 0..8 {
                let mut y = [0];
                let answer = wivulameno::circuit::evaluate(&circuit, &row(3, a, b), &mut y);
                assert_eq!(answer, Ok(()));
                let expected = u8::from(a >= b) | (b as u8) << 1;
                assert_eq!(y, [expected], "{a} and {b}");
                assert_eq!(a >= b, y.to_vec() == covered(3, b));
            }
        }
    }
}
