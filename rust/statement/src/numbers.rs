//! Sums and comparisons of numbers, whose bits stand lowest first.

use crate::gates::{Bit, Gates, NO, YES};
use std::cmp::Reverse;
use std::collections::BinaryHeap;
use std::ops::Range;

/// So many bits has a number.
pub fn width(number: u128) -> usize {
    (u128::BITS - number.leading_zeros()) as usize
}

/// A number that is least to greatest, with the bits that the greatest has. Numbers are
/// in the order of their greatest values.
#[derive(Clone, PartialEq, Eq, PartialOrd, Ord)]
pub struct Number {
    pub greatest: u128,
    pub least: u128,
    pub bits: Vec<Bit>,
}

impl Number {
    pub fn constant(number: u128) -> Number {
        let bit = |place| Bit::constant(number >> place & 1 == 1);
        Number {
            bits: (0..width(number)).map(bit).collect(),
            least: number,
            greatest: number,
        }
    }

    /// The number on these wires.
    pub fn of_wires(wires: Range<u32>) -> Number {
        Number {
            least: 0,
            greatest: u128::MAX >> (u128::BITS - wires.end + wires.start),
            bits: wires.map(Bit::wire).collect(),
        }
    }

    pub fn constant_value(&self) -> Option<u128> {
        (self.least == self.greatest).then_some(self.least)
    }

    /// The bit at a place; behind the last one there are zeros.
    fn bit(&self, place: usize) -> Bit {
        self.bits.get(place).copied().unwrap_or(NO)
    }
}

/// The places at which one of the two has a bit.
fn places(a: &Number, b: &Number) -> Range<usize> {
    0..a.bits.len().max(b.bits.len())
}

impl Gates {
    /// The sum of some numbers, if it has at most 128 bits. The constants are one term. The
    /// two smallest are added first: so the sums of narrow numbers stay narrow.
    pub fn sum(&mut self, terms: Vec<Number>) -> Option<Number> {
        let mut constant: u128 = 0;
        let mut rest = BinaryHeap::new();
        for term in terms {
            match term.constant_value() {
                Some(value) => constant = constant.checked_add(value)?,
                None => rest.push(Reverse(term)),
            }
        }
        rest.push(Reverse(Number::constant(constant)));
        loop {
            let Reverse(first) = rest.pop()?;
            let Some(Reverse(second)) = rest.pop() else {
                return Some(first);
            };
            rest.push(Reverse(self.sum_of_two(first, second)?));
        }
    }

    /// One AND for each carry.
    fn sum_of_two(&mut self, a: Number, b: Number) -> Option<Number> {
        let greatest = a.greatest.checked_add(b.greatest)?;
        let least = a.least + b.least;
        let [wide, narrow] = match a.bits.len() < b.bits.len() {
            true => [b, a],
            false => [a, b],
        };
        let mut carry = NO;
        let mut bits = vec![];
        for place in 0..width(greatest) {
            let [x, y] = [wide.bit(place), narrow.bit(place)];
            let differ = self.xor(x, carry);
            bits.push(self.xor(differ, y));
            if place + 1 < width(greatest) {
                carry = self.majority(x, y, carry);
            }
        }
        Some(Number {
            greatest,
            least,
            bits,
        })
    }

    /// Are two of the three bits 1, or all? With c = x or c = y the answer is c, else it
    /// is x = y: c XOR ((x XOR c) AND (y XOR c)).
    fn majority(&mut self, x: Bit, y: Bit, c: Bit) -> Bit {
        let constant = [x, y, c].iter().position(|bit| bit.value().is_some());
        match constant {
            Some(0) => self.among(y, c, x),
            Some(1) => self.among(x, c, y),
            Some(_) => self.among(x, y, c),
            None => {
                let change = [self.xor(x, c), self.xor(y, c)];
                let change = self.and(change[0], change[1]);
                self.xor(c, change)
            }
        }
    }

    /// The majority of two bits and a constant.
    fn among(&mut self, x: Bit, y: Bit, constant: Bit) -> Bit {
        match constant == YES {
            true => self.or(x, y),
            false => self.and(x, y),
        }
    }

    /// Is a < b? The borrow of a - b goes from bit to bit: where the bits differ it
    /// becomes that of b, else it stays: borrow XOR ((x XOR y) AND (y XOR borrow)).
    pub fn less(&mut self, a: &Number, b: &Number) -> Bit {
        if a.greatest < b.least {
            return YES;
        }
        if a.least >= b.greatest {
            return NO;
        }
        let mut borrow = NO;
        for place in places(a, b) {
            let [x, y] = [a.bit(place), b.bit(place)];
            let differ = self.xor(x, y);
            let change = self.xor(y, borrow);
            let change = self.and(differ, change);
            borrow = self.xor(borrow, change);
        }
        borrow
    }

    /// Is a = b? One AND for each bit but the first.
    pub fn equal(&mut self, a: &Number, b: &Number) -> Bit {
        if a.greatest < b.least || b.greatest < a.least {
            return NO;
        }
        places(a, b).fold(YES, |all, place| {
            let differ = self.xor(a.bit(place), b.bit(place));
            self.and(all, !differ)
        })
    }

    /// Is a number in one of the ranges? It is in at most one of ranges that do not
    /// meet, so XOR joins them as OR would.
    pub fn within(&mut self, a: &Number, ranges: &[(u128, u128)]) -> Bit {
        apart(ranges).into_iter().fold(NO, |found, (low, high)| {
            let [first, last] = [low, high].map(Number::constant);
            let is_in = match low == high {
                true => self.equal(a, &first),
                // What is above the last is not below the first: XOR takes it off.
                false => {
                    let [below, above] = [self.less(a, &first), self.less(&last, a)];
                    self.xor(!below, above)
                }
            };
            self.xor(found, is_in)
        })
    }
}

/// The same numbers in ranges of which no two meet or touch.
fn apart(ranges: &[(u128, u128)]) -> Vec<(u128, u128)> {
    let mut sorted = ranges.to_vec();
    sorted.sort_unstable();
    let mut apart: Vec<(u128, u128)> = vec![];
    for (low, high) in sorted {
        match apart.last_mut() {
            Some(last) if low <= last.1.saturating_add(1) => last.1 = last.1.max(high),
            _ => apart.push((low, high)),
        }
    }
    apart
}

#[cfg(test)]
mod tests {
    use super::*;

    type Ranges<'a> = &'a [(u128, u128)];

    #[test]
    fn ranges_that_meet_are_one() {
        let top = u128::MAX;
        let known: [(Ranges, Ranges); 6] = [
            (&[(7, 7), (3, 3)], &[(3, 3), (7, 7)]),
            (&[(3, 3), (3, 3)], &[(3, 3)]),
            (&[(5, 9), (3, 4)], &[(3, 9)]),
            (&[(3, 9), (4, 5), (11, 12)], &[(3, 9), (11, 12)]),
            (&[(top, top), (0, top - 1)], &[(0, top)]),
            (&[(5, 7), (0, top)], &[(0, top)]),
        ];
        for (ranges, expected) in known {
            assert_eq!(apart(ranges), expected);
        }
    }

    #[test]
    fn widths() {
        let known = [(0, 0), (1, 1), (2, 2), (255, 8), (256, 9), (u128::MAX, 128)];
        for (number, expected) in known {
            assert_eq!(width(number), expected);
            assert_eq!(Number::constant(number).bits.len(), expected);
        }
        let of_wires = |width: u32| Number::of_wires(3..3 + width).greatest;
        assert_eq!([1, 16, 128].map(of_wires), [1, 65_535, u128::MAX]);
    }
}
