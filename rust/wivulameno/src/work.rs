//! The work buffer.

use crate::circuit::{sizes, Sizes};
use crate::limits::SHARED_WORK;
use crate::Refusal;
use std::fmt;

/// The memory that a call works in. Six functions are lent it:
/// [`prove`](crate::proof::prove), [`check`](crate::proof::check) and those of
/// [`mpc`](crate::mpc); and so is a [`SharedChecker`](crate::proof::SharedChecker). One
/// can be used for one call after the other, for every circuit that it is long enough for.
///
/// A work buffer of fewer than [`Sizes::work_len`] bytes is refused with 6, directly
/// after the circuit is read. A call that is refused for its circuit or by this test
/// leaves the buffer as it was; after every other call, refused or not, it is all zero,
/// so no secret is left in it. A shared checker asks for [`SHARED_WORK`] bytes, before
/// it reads a circuit.
///
/// ```
/// use wivulameno::circuit::Sizes;
/// use wivulameno::Work;
///
/// let sizes = Sizes { inputs: 2, outputs: 1, gates: 1, ands: 1 };
/// let mut work = Work::for_sizes(sizes);
/// assert_eq!(work.len(), 64 * 3 + 4096);
/// work.grow_for(Sizes { gates: 90_000, ..sizes });
/// assert_eq!(work.len(), 64 * 90_002 + 4096);
/// ```
#[derive(Default)]
pub struct Work<B = Vec<u8>> {
    bytes: B,
}

impl Work {
    /// A buffer that is long enough for this circuit. Refuses the circuit as
    /// [`circuit`](crate::circuit) says.
    pub fn for_circuit(circuit: &[u8]) -> Result<Work, Refusal> {
        sizes(circuit).map(Work::for_sizes)
    }

    /// A buffer that is long enough for every circuit of these sizes.
    pub fn for_sizes(sizes: Sizes) -> Work {
        Work {
            bytes: vec![0; sizes.work_len()],
        }
    }

    /// A buffer that is long enough for every circuit, and for a
    /// [`SharedChecker`](crate::proof::SharedChecker).
    pub fn for_every_circuit() -> Work {
        Work {
            bytes: vec![0; SHARED_WORK],
        }
    }

    /// Makes the buffer longer if it is too short for a circuit of these sizes.
    pub fn grow_for(&mut self, sizes: Sizes) {
        if self.len() < sizes.work_len() {
            // What is given up is all zero.
            *self = Work::for_sizes(sizes);
        }
    }

    /// The bytes of the buffer.
    pub fn len(&self) -> usize {
        self.bytes.len()
    }

    /// Is it of no bytes? Then every call is refused.
    pub fn is_empty(&self) -> bool {
        self.bytes.is_empty()
    }
}

impl<'a> Work<&'a mut [u8]> {
    /// A buffer that the caller owns, in memory that is never swapped out, say. It may
    /// hold anything.
    pub fn lent(bytes: &'a mut [u8]) -> Self {
        Work { bytes }
    }
}

impl<B: AsMut<[u8]>> Work<B> {
    pub(crate) fn bytes(&mut self) -> &mut [u8] {
        self.bytes.as_mut()
    }
}

impl<B: AsRef<[u8]>> fmt::Debug for Work<B> {
    fn fmt(&self, f: &mut fmt::Formatter) -> fmt::Result {
        let len = self.bytes.as_ref().len();
        f.debug_struct("Work").field("len", &len).finish()
    }
}

#[cfg(test)]
mod tests {
    use super::*;

    const K: Sizes = Sizes {
        inputs: 2,
        outputs: 1,
        gates: 1,
        ands: 1,
    };

    /// By hand: 64 times 3 and 4,096.
    #[test]
    fn lengths() {
        let mut work = Work::for_sizes(K);
        assert_eq!(work.len(), 4288);
        work.grow_for(Sizes { gates: 0, ..K });
        assert_eq!(work.len(), 4288);
        work.grow_for(Sizes { gates: 2, ..K });
        assert_eq!((work.len(), work.is_empty()), (4352, false));
        assert!(Work::default().is_empty());
        assert_eq!(Work::for_every_circuit().len(), 6_436_864);
    }

    #[test]
    fn what_is_in_it_is_not_shown() {
        let mut bytes = [0x5a; 3];
        assert_eq!(format!("{:?}", Work::lent(&mut bytes)), "Work { len: 3 }");
    }
}
