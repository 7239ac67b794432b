//! Two circuits with the same inputs, joined to one.

use crate::circuit::{legal_fields, Fields, Record, MOST_GATES, MOST_OUTPUTS};
use crate::Refusal;

/// Writes the joined file to the start of `out` and gives its length: the refusals of
/// the first circuit, those of the second, 25, 2, then 6.
pub fn join(first: &[u8], second: &[u8], out: &mut [u8]) -> Result<usize, Refusal> {
    let first = legal_fields(first)?;
    let second = legal_fields(second)?;
    if first.inputs != second.inputs {
        return Err(25);
    }
    let joined = appended(first, second);
    if joined.outputs.len() > MOST_OUTPUTS || joined.records.len() > MOST_GATES {
        return Err(2);
    }
    let file = joined.bytes();
    let lent = out.get_mut(..file.len()).ok_or(6_u32)?;
    lent.copy_from_slice(&file);
    Ok(file.len())
}

/// The first's outputs then the second's, the second's slots after the first's, its
/// chain appended.
fn appended(mut first: Fields, mut second: Fields) -> Fields {
    second.move_up(first.records.len());
    *first.chain_end() = second.head;
    first.outputs.append(&mut second.outputs);
    first.records.append(&mut second.records);
    first
}

impl Fields {
    /// The one link of a legal chain that is 0: the head where there are no gates.
    fn chain_end(&mut self) -> &mut usize {
        let links = self.records.iter_mut().map(|record| &mut record.next);
        let mut links = links.chain([&mut self.head]);
        links.find(|link| **link == 0).expect("a chain that ends")
    }

    /// Makes room for so many slots before its own: its wires and links follow.
    fn move_up(&mut self, slots: usize) {
        let inputs = self.inputs;
        let wire = |wire: &mut usize| {
            if *wire >= inputs {
                *wire += slots;
            }
        };
        let link = |link: &mut usize| {
            if *link != 0 {
                *link += slots;
            }
        };
        self.outputs.iter_mut().for_each(wire);
        link(&mut self.head);
        for Record { a, b, next, .. } in &mut self.records {
            [a, b].into_iter().for_each(wire);
            link(next);
        }
    }
}

#[cfg(test)]
mod tests {
    use super::*;
    use crate::circuit::{evaluate, read};
    use crate::examples::{file, FOUR, K};

    /// Two inputs, of which the second is the output; no gates.
    const WIRE: [u8; 20] = file([2, 1, 0, 0, 1]);

    /// NOT x in slot 2, which is wire 3; wire 3 XOR y in slot 1; both are outputs.
    const TWO: [u8; 56] = file([
        2, 2, 2, 2, 2, 3, // head and outputs
        1, 3, 1, 0, // slot 1
        3, 0, 0, 1, // slot 2
    ]);

    fn joined(first: &[u8], second: &[u8]) -> Result<Vec<u8>, Refusal> {
        let mut out = vec![0x55; 2_000_000];
        let len = join(first, second, &mut out)?;
        assert!(out[len..].iter().all(|&byte| byte == 0x55));
        out.truncate(len);
        Ok(out)
    }

    /// The order of slots and links, by hand.
    #[test]
    fn by_hand() {
        let k_and_two: [u8; 76] = file([
            2, 3, 3, 1, 2, 3, 4, // head and outputs
            2, 0, 1, 3, // slot 1
            1, 4, 1, 0, // slot 2
            3, 0, 0, 2, // slot 3
        ]);
        let two_and_k: [u8; 76] = file([
            2, 3, 3, 2, 2, 3, 4, // head and outputs
            1, 3, 1, 3, // slot 1
            3, 0, 0, 1, // slot 2
            2, 0, 1, 0, // slot 3
        ]);
        let wire_and_two: [u8; 60] = file([
            2, 3, 2, 2, 1, 2, 3, // head and outputs
            1, 3, 1, 0, // slot 1
            3, 0, 0, 1, // slot 2
        ]);
        let two_and_wire: [u8; 60] = file([
            2, 3, 2, 2, 2, 3, 1, // head and outputs
            1, 3, 1, 0, // slot 1
            3, 0, 0, 1, // slot 2
        ]);
        let two_wires: [u8; 24] = file([2, 2, 0, 0, 1, 1]);
        assert_eq!(joined(&K, &TWO), Ok(k_and_two.to_vec()));
        assert_eq!(joined(&TWO, &K), Ok(two_and_k.to_vec()));
        assert_eq!(joined(&WIRE, &TWO), Ok(wire_and_two.to_vec()));
        assert_eq!(joined(&TWO, &WIRE), Ok(two_and_wire.to_vec()));
        assert_eq!(joined(&WIRE, &WIRE), Ok(two_wires.to_vec()));
    }

    /// Both outputs side by side, and the sums of the sizes.
    #[test]
    fn both_evaluations() {
        let all = [&K[..], &TWO, &WIRE];
        for (first, second) in all.into_iter().flat_map(|a| all.map(|b| (a, b))) {
            let file = joined(first, second).expect("joined");
            let [one, other, both] = [first, second, &file[..]].map(|file| read(file).unwrap());
            assert_eq!(both.outputs, one.outputs + other.outputs);
            assert_eq!(both.gates, one.gates + other.gates);
            assert_eq!(both.ands, one.ands + other.ands);
            for witness in 0..4 {
                let mut ys = [[0]; 3];
                for (y, file) in ys.iter_mut().zip([first, second, &file[..]]) {
                    assert_eq!(evaluate(file, &[witness], y), Ok(()));
                }
                let [[one_y], [other_y], [both_y]] = ys;
                assert_eq!(both_y, one_y | other_y << one.outputs);
            }
        }
    }

    /// The first, the second, 25, 2, 6.
    #[test]
    fn refusals_in_order() {
        let mut first = K;
        first[20] = 4;
        let mut second = FOUR;
        second[12] = 5;
        assert_eq!(joined(&first, &second), Err(3));
        assert_eq!(joined(&K, &second), Err(19));
        assert_eq!(joined(&second, &first), Err(19));
        assert_eq!(join(&K, &FOUR, &mut []), Err(25));
        assert_eq!(join(&K, &K, &mut [0; 55]), Err(6));
        assert_eq!(join(&K, &K, &mut [0; 56]), Ok(56));
    }

    /// Outputs of the file `WIRE`, so many.
    fn wide(outputs: u32) -> Vec<u8> {
        let mut words = vec![2, outputs, 0, 0];
        words.resize(4 + outputs as usize, 1);
        words.iter().flat_map(|word| word.to_le_bytes()).collect()
    }

    #[test]
    fn the_most_outputs() {
        assert!(joined(&wide(100), &wide(156)).is_ok());
        assert_eq!(joined(&wide(100), &wide(157)), Err(2));
        assert_eq!(join(&wide(100), &wide(157), &mut []), Err(2), "before 6");
        assert_eq!(joined(&wide(256), &FOUR), Err(25), "before 2");
    }
}
