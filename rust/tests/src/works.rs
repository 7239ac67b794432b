//! Work buffers: what they are lent with, and what the paper says becomes of them.

use crate::guarded::Guarded;
use crate::random::Random;
use reference::circuit;

/// The least length for a circuit: 64 (I + G) + 4,096. For a file that is refused
/// there is none; then it is that of a small circuit.
pub fn least(file: &[u8]) -> usize {
    let wires = circuit::read(file).map_or(1, |sizes| sizes.inputs + sizes.gates);
    64 * wires + 4096
}

/// Lengths that are enough: the least one, and longer ones.
pub fn enough(random: &mut Random, file: &[u8]) -> usize {
    let least = least(file);
    random.pick(&[least, least, least + 1, least + 7, 2 * least])
}

/// A buffer of random bytes that is lent with a circuit file.
pub struct Lent {
    buffer: Guarded,
    is_untouched: bool,
}

impl Lent {
    pub fn new(random: &mut Random, file: &[u8], len: usize) -> Lent {
        let shift = random.below(8);
        Lent {
            buffer: Guarded::new(random, shift, len),
            is_untouched: is_untouched(file, len),
        }
    }

    pub fn bytes(&mut self) -> &mut [u8] {
        self.buffer.lent()
    }

    /// A copy of what it holds.
    pub fn copy(&self) -> Vec<u8> {
        self.buffer.get().to_vec()
    }

    /// Is it as the paper says, and like the one that the reference was lent?
    pub fn expect(&self, expected: &[u8], shown: &str) {
        assert!(self.buffer.get() == expected, "work, {shown}");
        assert!(self.buffer.outside_unchanged(), "beside work, {shown}");
        let good = match self.is_untouched {
            true => self.buffer.unchanged(),
            false => self.buffer.get().iter().all(|&byte| byte == 0),
        };
        assert!(good, "work is not as stated, {shown}");
    }
}

/// Does a call with this file leave a work buffer of this length as it was? Only if the
/// file is refused or the buffer is too short; else it is all zero, whatever is
/// answered.
pub fn is_untouched(file: &[u8], len: usize) -> bool {
    match circuit::read(file) {
        Ok(sizes) => len < 64 * (sizes.inputs + sizes.gates) + 4096,
        Err(_) => true,
    }
}

#[cfg(test)]
mod tests {
    use super::*;
    use crate::circuits::K;

    #[test]
    fn lengths_for_k() {
        assert_eq!(least(&K), 4288);
        assert!(!is_untouched(&K, 4288) && is_untouched(&K, 4287));
        assert!(is_untouched(&K[1..], 99_999));
        let mut random = Random::new(1);
        assert!((0..50).all(|_| enough(&mut random, &K) >= 4288));
    }

    #[test]
    #[should_panic(expected = "work is not as stated")]
    fn a_byte_that_is_left() {
        let mut lent = Lent::new(&mut Random::new(1), &K, 4288);
        lent.bytes().fill(0);
        lent.bytes()[4287] = 1;
        let copy = lent.copy();
        lent.expect(&copy, "");
    }

    #[test]
    #[should_panic(expected = "work is not as stated")]
    fn a_refused_circuit() {
        let mut lent = Lent::new(&mut Random::new(1), &[], 4288);
        lent.bytes().fill(0);
        let copy = lent.copy();
        lent.expect(&copy, "");
    }
}
