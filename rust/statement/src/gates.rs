//! Gates, each built once, and the circuit file that they make.

use std::collections::HashMap;
use std::ops::Not;
use wivulameno::limits::MAX_GATES;

/// A bit of a circuit: a wire, perhaps inverted, or without a wire a constant.
#[derive(Clone, Copy, Debug, PartialEq, Eq, PartialOrd, Ord)]
pub struct Bit {
    wire: Option<u32>,
    is_flipped: bool,
}

pub const NO: Bit = Bit::constant(false);
pub const YES: Bit = Bit::constant(true);

impl Bit {
    pub const fn constant(value: bool) -> Bit {
        Bit {
            wire: None,
            is_flipped: value,
        }
    }

    pub fn wire(wire: u32) -> Bit {
        Bit {
            wire: Some(wire),
            is_flipped: false,
        }
    }

    /// Its value, if that is the same for every row.
    pub fn value(self) -> Option<bool> {
        self.wire.is_none().then_some(self.is_flipped)
    }

    fn flipped_if(self, flip: bool) -> Bit {
        Bit {
            is_flipped: self.is_flipped ^ flip,
            ..self
        }
    }
}

impl Not for Bit {
    type Output = Bit;

    fn not(self) -> Bit {
        self.flipped_if(true)
    }
}

/// The kinds, with their numbers in a circuit file.
#[derive(Clone, Copy, PartialEq, Eq, Hash)]
enum Kind {
    Xor = 1,
    And = 2,
    Inv = 3,
}

#[derive(Clone, Copy, PartialEq, Eq, Hash)]
struct Gate {
    kind: Kind,
    a: u32,
    b: u32,
}

impl Gate {
    /// The same for both orders of its wires.
    fn sorted(self) -> Gate {
        match self.kind {
            Kind::Inv => self,
            _ => Gate {
                a: self.a.min(self.b),
                b: self.a.max(self.b),
                ..self
            },
        }
    }

    fn reads(self) -> [u32; 2] {
        match self.kind {
            Kind::Inv => [self.a, self.a],
            _ => [self.a, self.b],
        }
    }
}

/// The gates of a circuit in the order in which they were built.
pub struct Gates {
    inputs: u32,
    list: Vec<Gate>,
    wires: HashMap<Gate, u32>,
    is_full: bool,
}

impl Gates {
    pub fn new(inputs: u32) -> Gates {
        Gates {
            inputs,
            list: vec![],
            wires: HashMap::new(),
            is_full: false,
        }
    }

    /// Was there a gate too many? It was not built, and what follows is of no use.
    pub fn is_full(&self) -> bool {
        self.is_full
    }

    /// The wire of a gate, which is built if there is none like it.
    fn built(&mut self, gate: Gate) -> u32 {
        if let Some(&wire) = self.wires.get(&gate.sorted()) {
            return wire;
        }
        let count = self.list.len() as u32;
        if count == MAX_GATES {
            self.is_full = true;
            return 0;
        }
        let wire = self.inputs + count;
        self.list.push(gate);
        self.wires.insert(gate.sorted(), wire);
        wire
    }

    pub fn xor(&mut self, x: Bit, y: Bit) -> Bit {
        let flip = x.is_flipped ^ y.is_flipped;
        let result = match (x.wire, y.wire) {
            (None, wire) | (wire, None) => Bit {
                wire,
                is_flipped: false,
            },
            (Some(a), Some(b)) if a == b => NO,
            (Some(a), Some(b)) => Bit::wire(self.xor_wires(a, b)),
        };
        result.flipped_if(flip)
    }

    /// The XOR of two different wires; (a XOR b) XOR b is a.
    fn xor_wires(&mut self, a: u32, b: u32) -> u32 {
        let without = |sum: u32, wire: u32| {
            let gate = self.gate(sum).filter(|gate| gate.kind == Kind::Xor)?;
            match gate {
                _ if gate.a == wire => Some(gate.b),
                _ if gate.b == wire => Some(gate.a),
                _ => None,
            }
        };
        let kind = Kind::Xor;
        match without(a, b).or_else(|| without(b, a)) {
            Some(wire) => wire,
            None => self.built(Gate { kind, a, b }),
        }
    }

    fn gate(&self, wire: u32) -> Option<Gate> {
        let slot = wire.checked_sub(self.inputs)?;
        self.list.get(slot as usize).copied()
    }

    pub fn and(&mut self, x: Bit, y: Bit) -> Bit {
        match (x.value(), y.value()) {
            (Some(false), _) | (_, Some(false)) => NO,
            (Some(true), _) => y,
            (_, Some(true)) => x,
            _ if x == y => x,
            _ if x == !y => NO,
            _ => {
                let kind = Kind::And;
                let [a, b] = [self.wire(x), self.wire(y)];
                Bit::wire(self.built(Gate { kind, a, b }))
            }
        }
    }

    pub fn or(&mut self, x: Bit, y: Bit) -> Bit {
        !self.and(!x, !y)
    }

    /// The wire that has this bit's value. A constant is made of wire 0 XOR itself.
    pub fn wire(&mut self, bit: Bit) -> u32 {
        let wire = bit.wire.unwrap_or_else(|| {
            let kind = Kind::Xor;
            self.built(Gate { kind, a: 0, b: 0 })
        });
        let kind = Kind::Inv;
        match bit.is_flipped {
            true => self.built(Gate {
                kind,
                a: wire,
                b: 0,
            }),
            false => wire,
        }
    }

    /// The circuit file with these outputs, without the gates that none of them needs.
    pub fn file(&self, outputs: &[u32]) -> Vec<u8> {
        let needed = self.needed(outputs);
        let mut numbers: Vec<u32> = (0..self.inputs).collect();
        let mut next = self.inputs;
        for is_needed in &needed {
            numbers.push(next);
            next += u32::from(*is_needed);
        }
        let number = |wire: u32| numbers[wire as usize];
        let count = next - self.inputs;
        let mut words = vec![self.inputs, outputs.len() as u32, count, count.min(1)];
        words.extend(outputs.iter().map(|&wire| number(wire)));
        let gates = self.list.iter().zip(needed).filter(|(_, needed)| *needed);
        for (slot, (gate, _)) in (1..).zip(gates) {
            let b = match gate.kind {
                Kind::Inv => 0,
                _ => number(gate.b),
            };
            let next = (slot + 1) % (count + 1);
            words.extend([gate.kind as u32, number(gate.a), b, next]);
        }
        words.into_iter().flat_map(u32::to_le_bytes).collect()
    }

    /// Which gates do the outputs need?
    fn needed(&self, outputs: &[u32]) -> Vec<bool> {
        let mut needed = vec![false; self.list.len()];
        let mark = |needed: &mut Vec<bool>, wire: u32| {
            if let Some(slot) = wire.checked_sub(self.inputs) {
                needed[slot as usize] = true;
            }
        };
        for &wire in outputs {
            mark(&mut needed, wire);
        }
        for (slot, gate) in self.list.iter().enumerate().rev() {
            if needed[slot] {
                for wire in gate.reads() {
                    mark(&mut needed, wire);
                }
            }
        }
        needed
    }
}

#[cfg(test)]
mod tests {
    use super::*;

    /// Two inputs, x and y.
    fn gates() -> (Gates, Bit, Bit) {
        (Gates::new(2), Bit::wire(0), Bit::wire(1))
    }

    #[test]
    fn what_needs_no_gate() {
        let (mut gates, x, y) = gates();
        for bit in [x, !x, NO, YES] {
            assert_eq!(gates.xor(bit, NO), bit);
            assert_eq!(gates.xor(YES, bit), !bit);
            assert_eq!(gates.xor(bit, bit), NO);
            assert_eq!(gates.xor(bit, !bit), YES);
            assert_eq!(gates.and(bit, NO), NO);
            assert_eq!(gates.and(NO, bit), NO);
            assert_eq!(gates.and(bit, YES), bit);
            assert_eq!(gates.and(YES, bit), bit);
            assert_eq!(gates.and(bit, bit), bit);
            assert_eq!(gates.and(bit, !bit), NO);
            assert_eq!(gates.or(bit, YES), YES);
            assert_eq!(gates.or(NO, bit), bit);
            assert_eq!(gates.or(bit, !bit), YES);
        }
        assert!(gates.list.is_empty());
        let sum = gates.xor(x, !y);
        assert_eq!(gates.xor(sum, x), !y);
        assert_eq!(gates.xor(!y, sum), x);
        assert_eq!(gates.list.len(), 1);
    }

    #[test]
    fn a_gate_is_built_once() {
        let (mut gates, x, y) = gates();
        let both = gates.and(x, y);
        assert_eq!(gates.and(y, x), both);
        let differ = gates.xor(x, y);
        assert_eq!(gates.xor(!y, x), !differ);
        assert_eq!(gates.list.len(), 2);
        let neither = gates.and(!x, !y);
        assert_eq!(gates.or(y, x), !neither);
        assert_eq!(gates.list.len(), 5);
    }

    /// By hand: x, then NOT x, where the AND between them is left out.
    #[test]
    fn the_file_has_what_is_needed() {
        let (mut gates, x, y) = gates();
        gates.and(x, y);
        let outputs = [gates.wire(x), gates.wire(!x)];
        let words = [2_u32, 2, 1, 1, 0, 2, 3, 0, 0, 0];
        assert_eq!(gates.file(&outputs), words.map(u32::to_le_bytes).concat());
        let words = [2_u32, 1, 0, 0, 1];
        assert_eq!(gates.file(&[1]), words.map(u32::to_le_bytes).concat());
    }
}
