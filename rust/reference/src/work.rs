//! The work buffer that is lent to the operations over a run.

use crate::circuit::Sizes;
use crate::Refusal;

/// The least length of the buffer for a circuit.
pub fn work_len(sizes: Sizes) -> usize {
    64 * (sizes.inputs + sizes.gates) + 4096
}

/// The buffer of an operation that has passed the test of its length. Nothing is kept in
/// it, but it is all zero when the operation ends, however that ends.
pub(crate) struct Work<'a>(&'a mut [u8]);

impl Work<'_> {
    /// 6 for a buffer that is too short for this circuit, which stays as it is.
    pub fn lent(sizes: Sizes, work: &mut [u8]) -> Result<Work<'_>, Refusal> {
        Work::of_len(work_len(sizes), work)
    }

    /// 6 for a buffer of fewer bytes, which stays as it is.
    pub fn of_len(least: usize, work: &mut [u8]) -> Result<Work<'_>, Refusal> {
        match work.len() < least {
            true => Err(6),
            false => Ok(Work(work)),
        }
    }
}

impl Drop for Work<'_> {
    fn drop(&mut self) {
        self.0.fill(0);
    }
}

#[cfg(test)]
mod tests {
    use super::*;

    const SIZES: Sizes = Sizes {
        inputs: 3,
        outputs: 200,
        gates: 4,
        ands: 2,
    };

    /// By hand: 64 times 7, and 4,096. Inputs and gates count, outputs do not.
    #[test]
    fn lengths() {
        assert_eq!(work_len(SIZES), 4544);
        let most = Sizes {
            inputs: 512,
            gates: 100_000,
            ..SIZES
        };
        assert_eq!(work_len(most), 6_436_864);
    }

    #[test]
    fn what_becomes_of_it() {
        let mut short = vec![0x55; 4543];
        assert_eq!(Work::lent(SIZES, &mut short).err(), Some(6));
        assert_eq!(short, vec![0x55; 4543]);
        for len in [4544, 4545, 9000] {
            let mut work = vec![0x55; len];
            assert!(Work::lent(SIZES, &mut work).is_ok());
            assert_eq!(work, vec![0; len]);
        }
    }
}
