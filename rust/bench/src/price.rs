//! A pricing circuit of many gates: the sum of quantities times prices.

const XOR: u32 = 1;
const AND: u32 = 2;
const INV: u32 = 3;

/// Quantities and prices, 16 of each, of 16 bits each; the sum has 32 bits.
const VALUES: usize = 16;
const BITS: usize = 16;
const SUM_BITS: usize = 32;
const INPUTS: usize = 2 * VALUES * BITS;

/// Gates in the order of their slots and of the chain; gate k writes wire I + k.
struct Builder {
    gates: Vec<[u32; 3]>,
}

impl Builder {
    fn gate(&mut self, kind: u32, a: usize, b: usize) -> usize {
        self.gates.push([kind, a as u32, b as u32]);
        INPUTS + self.gates.len() - 1
    }

    /// The sum of three bits and its carry, with one AND:
    /// carry' = carry ^ ((a ^ carry) & (b ^ carry)).
    fn full_adder(&mut self, a: usize, b: usize, carry: usize) -> (usize, usize) {
        let [from_a, from_b] = [a, b].map(|bit| self.gate(XOR, bit, carry));
        let both = self.gate(AND, from_a, from_b);
        (self.gate(XOR, from_a, b), self.gate(XOR, both, carry))
    }

    /// Adds bits to the sum from place `first` on; what goes beyond the sum is dropped.
    fn add(&mut self, sum: &mut [usize], first: usize, bits: &[usize], zero: usize) {
        let mut carry = zero;
        for (place, bit) in sum[first..].iter_mut().enumerate() {
            let Some(&other) = bits.get(place) else {
                (*bit, carry) = (self.gate(XOR, *bit, carry), self.gate(AND, *bit, carry));
                continue;
            };
            (*bit, carry) = self.full_adder(other, *bit, carry);
        }
    }

    /// The product of two numbers, 32 bits.
    fn multiply(&mut self, a: usize, b: usize, zero: usize) -> Vec<usize> {
        let mut product = vec![zero; SUM_BITS];
        for place in 0..BITS {
            let row: Vec<usize> = (0..BITS)
                .map(|bit| self.gate(AND, a + bit, b + place))
                .collect();
            // The bits above are zero yet.
            self.add(&mut product[..place + BITS + 1], place, &row, zero);
        }
        product
    }
}

/// The quantity and the price of an item, by their numbers.
fn item(k: usize) -> [usize; 2] {
    [k % VALUES, (k / VALUES + k) % VALUES]
}

/// The items of a circuit of so many gates.
fn items(gates: usize) -> usize {
    gates / of_items(1).gates.len()
}

/// The sum of so many items; its outputs are the last wires that were written to it.
struct Price {
    gates: Vec<[u32; 3]>,
    sum: Vec<usize>,
}

fn of_items(count: usize) -> Price {
    let mut builder = Builder { gates: vec![] };
    let zero = builder.gate(XOR, 0, 0);
    let mut sum = vec![zero; SUM_BITS];
    for k in 0..count {
        let [quantity, price] = item(k);
        let product = builder.multiply(quantity * BITS, (VALUES + price) * BITS, zero);
        builder.add(&mut sum, 0, &product, zero);
    }
    Price {
        gates: builder.gates,
        sum,
    }
}

/// A circuit file of exactly so many gates: as many items as there is room for, and then
/// INV gates of which nothing follows.
pub fn circuit(gates: usize) -> Vec<u8> {
    let Price { gates: made, sum } = of_items(items(gates));
    let mut fields = vec![INPUTS as u32, SUM_BITS as u32, gates as u32, 1];
    fields.extend(sum.iter().map(|&wire| wire as u32));
    let rest = std::iter::repeat_n([INV, 0, 0], gates - made.len());
    for (slot, [kind, a, b]) in (1..).zip(made.into_iter().chain(rest)) {
        let next = if slot == gates as u32 { 0 } else { slot + 1 };
        fields.extend([kind, a, b, next]);
    }
    fields
        .iter()
        .flat_map(|field| field.to_le_bytes())
        .collect()
}

/// The row of these quantities and prices.
pub fn row(values: [u16; 2 * VALUES]) -> Vec<u8> {
    values.map(u16::to_le_bytes).concat()
}

/// Some quantities and prices.
pub fn some_values() -> [u16; 2 * VALUES] {
    std::array::from_fn(|k| (40_503 * k * k + 12_345 * k + 977) as u16)
}

#[cfg(test)]
mod tests {
    use super::*;

    /// The sum in integers.
    fn expected(values: [u16; 2 * VALUES], count: usize) -> u32 {
        let terms = (0..count).map(|k| {
            let [quantity, price] = item(k);
            u32::from(values[quantity]).wrapping_mul(values[VALUES + price].into())
        });
        terms.fold(0, u32::wrapping_add)
    }

    #[test]
    fn sums_as_integers_do() {
        let all = [
            [0; 2 * VALUES],
            [u16::MAX; 2 * VALUES],
            some_values(),
            std::array::from_fn(|k| if k < VALUES { 1 } else { k as u16 }),
        ];
        for gates in [9_000, 90_000] {
            let file = circuit(gates);
            let sizes = reference::circuit::read(&file).expect("a legal circuit");
            assert_eq!([sizes.inputs, sizes.outputs, sizes.gates], [512, 32, gates]);
            for values in all {
                let mut y = [0; 4];
                let answer = reference::circuit::evaluate(&file, &row(values), &mut y);
                assert_eq!(answer, Ok(()));
                let sum = expected(values, items(gates));
                assert_eq!(u32::from_le_bytes(y), sum, "{gates}");
            }
        }
    }

    /// Nearly all gates are those of items, and so the two circuits are of one kind.
    #[test]
    fn one_kind() {
        let ands = |gates| {
            let sizes = reference::circuit::read(&circuit(gates)).expect("a legal circuit");
            sizes.ands as f64 / gates as f64
        };
        let [few, many] = [ands(9_000), ands(90_000)];
        assert!(few > 0.25 && many > 0.25, "{few} {many}");
        assert!((few / many - 1.0).abs() < 0.15, "{few} {many}");
    }
}
