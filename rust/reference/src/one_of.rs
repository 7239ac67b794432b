//! One of several outputs: what a circuit that is built for a list of outputs must be.
//!
//! Which gates are used is free. So no file is written here; it is said what a built file
//! has to give, and how many gates it may have.

use crate::bits::{oct, rest_is_zero};
use crate::circuit::{legal, Circuit, MOST_GATES};
use crate::Refusal;

/// A list has at most so many outputs.
const MOST_LISTED: usize = 16;

/// A circuit and a list of its outputs, of which one may be there twice.
pub struct OneOf {
    circuit: Circuit,
    listed: Vec<Vec<u8>>,
}

impl OneOf {
    /// The refusals of the circuit; then 30, 6 and 7 for the list, and 2.
    pub fn of(file: &[u8], list: &[u8]) -> Result<OneOf, Refusal> {
        let circuit = legal(file)?;
        let outputs = circuit.outputs.len();
        let len = oct(outputs);
        if list.is_empty() || list.len() > MOST_LISTED * len {
            return Err(30);
        }
        if !list.len().is_multiple_of(len) {
            return Err(6);
        }
        let listed: Vec<Vec<u8>> = list.chunks(len).map(<[u8]>::to_vec).collect();
        if !listed.iter().all(|output| rest_is_zero(output, outputs)) {
            return Err(7);
        }
        let one_of = OneOf { circuit, listed };
        match one_of.most_gates() > MOST_GATES {
            true => Err(2),
            false => Ok(one_of),
        }
    }

    /// The most gates that a built circuit has: G + O + N (O + 1).
    pub fn most_gates(&self) -> usize {
        let outputs = self.circuit.outputs.len();
        self.circuit.gates.len() + outputs + self.listed.len() * (outputs + 1)
    }

    /// Is the old output for this witness in the list? So says the one output of a built
    /// circuit.
    pub fn holds(&self, witness: &[u8]) -> bool {
        self.listed.contains(&self.circuit.output(witness))
    }

    /// Is the file a legal circuit with the old inputs, one output and no more gates?
    pub fn admits(&self, file: &[u8]) -> bool {
        let Ok(built) = legal(file) else {
            return false;
        };
        let is_one = built.inputs == self.circuit.inputs && built.outputs.len() == 1;
        is_one && built.gates.len() <= self.most_gates()
    }
}

#[cfg(test)]
mod tests {
    use super::*;
    use crate::examples::{file, FOUR, K};

    /// Nine inputs, which are the outputs.
    const NINE: [u8; 52] = file([9, 9, 0, 0, 0, 1, 2, 3, 4, 5, 6, 7, 8]);

    fn number(file: &[u8], list: &[u8]) -> Option<Refusal> {
        OneOf::of(file, list).err()
    }

    #[test]
    fn in_the_list_or_not() {
        let one_of = OneOf::of(&NINE, &[5, 1, 0, 0, 5, 1]).expect("a list");
        assert_eq!(one_of.most_gates(), 9 + 3 * 10);
        for (witness, expected) in [([5, 1], true), ([0, 0], true), ([5, 0], false)] {
            assert_eq!(one_of.holds(&witness), expected);
        }
        let both = OneOf::of(&K, &[0, 1]).expect("a list");
        assert!((0..4).all(|witness| both.holds(&[witness])));
        let one = OneOf::of(&K, &[1]).expect("a list");
        assert_eq!(
            [0, 1, 2, 3].map(|witness| one.holds(&[witness])),
            [false, false, false, true]
        );
        assert_eq!(one.most_gates(), 1 + 1 + 2);
    }

    /// INV gates of input 0, so many, and input 0 as the output.
    fn row(inputs: u32, gates: u32) -> Vec<u8> {
        let mut words = vec![inputs, 1, gates, 1, 0];
        for slot in 1..=gates {
            words.extend([3, 0, 0, (slot + 1) % (gates + 1)]);
        }
        words.iter().flat_map(|word| word.to_le_bytes()).collect()
    }

    /// Inputs, outputs and gates of a built file.
    #[test]
    fn what_is_admitted() {
        let one = OneOf::of(&K, &[1]).expect("a list");
        assert!(one.admits(&K));
        assert!(!one.admits(&FOUR) && !one.admits(&NINE) && !one.admits(&K[1..]));
        assert!(one.admits(&row(2, 4)) && !one.admits(&row(2, 5)));
        assert!(!one.admits(&row(1, 4)));
    }

    /// The circuit, 30, 6, 7, 2, each before the next.
    #[test]
    fn refusals_in_order() {
        assert_eq!(number(&K[..35], &[]), Some(1));
        assert_eq!(number(&NINE, &[]), Some(30));
        assert_eq!(number(&NINE, &[255; 33]), Some(30));
        assert_eq!(number(&NINE, &[255; 31]), Some(6));
        assert_eq!(number(&NINE, &[255; 32]), Some(7));
        assert_eq!(number(&NINE, &[1; 32]), None);
        assert_eq!(number(&K, &[1; 16]), None);
        assert_eq!(number(&K, &[1; 17]), Some(30));
        assert_eq!(number(&K, &[1, 2]), Some(7));
    }

    /// One output: N entries count 1 + 2 N.
    #[test]
    fn the_most_gates() {
        assert_eq!(number(&row(1, 99_997), &[1]), None);
        assert_eq!(number(&row(1, 99_998), &[1]), Some(2));
        assert_eq!(number(&row(1, 99_995), &[1, 1]), None);
        assert_eq!(number(&row(1, 99_996), &[1, 1]), Some(2));
        assert_eq!(number(&row(1, 99_998), &[2]), Some(7), "before 2");
    }
}
