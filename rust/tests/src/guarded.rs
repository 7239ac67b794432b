//! A buffer in the middle of a larger one, with random bytes before and after.

use crate::random::Random;
use std::ops::Range;

const GUARD: usize = 256;

pub struct Guarded {
    whole: Vec<u8>,
    before: Vec<u8>,
    middle: Range<usize>,
}

impl Guarded {
    /// A lent part of `len` random bytes, `shift` bytes further than the guard,
    /// so that a run over shifts meets every alignment.
    pub fn new(random: &mut Random, shift: usize, len: usize) -> Self {
        let start = GUARD + shift;
        let whole = random.bytes(start + len + GUARD);
        Guarded {
            before: whole.clone(),
            whole,
            middle: start..start + len,
        }
    }

    /// A lent part that holds `bytes`, with a shift of its own.
    pub fn holding(random: &mut Random, bytes: &[u8]) -> Self {
        let shift = random.below(8);
        let mut buffer = Guarded::new(random, shift, bytes.len());
        buffer.lent().copy_from_slice(bytes);
        buffer.before = buffer.whole.clone();
        buffer
    }

    /// A buffer for each of these.
    pub fn holding_each<const N: usize>(random: &mut Random, all: [&[u8]; N]) -> [Self; N] {
        all.map(|bytes| Guarded::holding(random, bytes))
    }

    pub fn lent(&mut self) -> &mut [u8] {
        &mut self.whole[self.middle.clone()]
    }

    pub fn get(&self) -> &[u8] {
        &self.whole[self.middle.clone()]
    }

    /// Is every byte outside of the lent part as it was?
    pub fn outside_unchanged(&self) -> bool {
        let Range { start, end } = self.middle;
        self.whole[..start] == self.before[..start] && self.whole[end..] == self.before[end..]
    }

    /// Is every byte as it was, the lent part too?
    pub fn unchanged(&self) -> bool {
        self.whole == self.before
    }
}

#[cfg(test)]
mod tests {
    use super::*;

    #[test]
    fn a_write_inside_is_seen_as_inside() {
        let mut buffer = Guarded::new(&mut Random::new(1), 3, 10);
        assert_eq!(buffer.get().len(), 10);
        assert!(buffer.unchanged());
        buffer.lent()[9] ^= 1;
        assert!(buffer.outside_unchanged());
        assert!(!buffer.unchanged());
    }

    #[test]
    fn a_buffer_holds_what_it_is_given() {
        let mut buffer = Guarded::holding(&mut Random::new(1), &[1, 2, 3]);
        assert_eq!(buffer.get(), [1, 2, 3]);
        assert!(buffer.unchanged());
        buffer.lent()[0] = 0;
        assert!(buffer.outside_unchanged() && !buffer.unchanged());
    }

    #[test]
    fn a_write_outside_is_seen() {
        let buffer = || Guarded::new(&mut Random::new(1), 3, 10);
        for place in [0, GUARD + 2, GUARD + 13, GUARD + 13 + GUARD - 1] {
            let mut buffer = buffer();
            buffer.whole[place] ^= 1;
            assert!(!buffer.outside_unchanged(), "place {place}");
        }
    }
}
