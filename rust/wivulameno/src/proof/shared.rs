//! One checker that up to 16 callers share.

use super::Statement;
use crate::limits::{MAX_CALLERS, SHARED_STATE};
use crate::{answer, Refusal, Work};
use std::fmt;
use std::ops::Range;

extern "C" {
    fn wv_shared_start(state: *mut [u8; SHARED_STATE]) -> u32;
    fn wv_shared_enter(
        state: *mut [u8; SHARED_STATE],
        caller: u32,
        places: *const [u64; 8],
        buffer: *const u8,
        buffer_len: usize,
        work: *mut u8,
        work_len: usize,
    ) -> u32;
    fn wv_shared_check(
        state: *mut [u8; SHARED_STATE],
        quota: u32,
        buffer: *const u8,
        buffer_len: usize,
        checked: *mut u32,
        verdicts: *mut [u8; MAX_CALLERS],
        work: *mut u8,
        work_len: usize,
    ) -> u32;
}

/// What a verdict holds for a caller whose proof was not finished.
const NONE: u8 = 255;

/// Where an input lies in the lent buffer.
#[derive(Clone, Copy, Debug, PartialEq, Eq, Hash)]
pub struct Place {
    /// Its first byte.
    pub start: u64,
    /// Its bytes.
    pub len: u64,
}

impl From<Range<usize>> for Place {
    fn from(range: Range<usize>) -> Place {
        Place {
            start: range.start as u64,
            len: range.len() as u64,
        }
    }
}

/// Where the inputs of a check lie in the lent buffer. They may overlap.
#[derive(Clone, Copy, Debug, PartialEq, Eq, Hash)]
pub struct Places {
    /// The circuit file.
    pub circuit: Place,
    /// The claimed outputs.
    pub y: Place,
    /// The message.
    pub message: Place,
    /// The proof.
    pub proof: Place,
}

impl Places {
    /// Puts a statement and its proof at the end of a buffer, and tells where.
    pub fn append(buffer: &mut Vec<u8>, statement: Statement, proof: &[u8]) -> Places {
        let mut put = |bytes: &[u8]| {
            let start = buffer.len();
            buffer.extend(bytes);
            Place::from(start..buffer.len())
        };
        Places {
            circuit: put(statement.circuit),
            y: put(statement.y),
            message: put(statement.message),
            proof: put(proof),
        }
    }

    /// As the C function is lent them.
    fn words(self) -> [u64; 8] {
        let Places {
            circuit,
            y,
            message,
            proof,
        } = self;
        let all = [circuit, y, message, proof];
        std::array::from_fn(|word| match word % 2 {
            0 => all[word / 2].start,
            _ => all[word / 2].len,
        })
    }
}

/// What became of a proof: accepted, or refused as [`check`](super::check) alone refuses
/// it.
pub type Verdict = Result<(), Refusal>;

/// What a call to the shared checker did.
#[derive(Clone, Copy, Debug, PartialEq, Eq)]
pub struct Checked {
    /// The instances that were checked.
    pub count: u32,
    /// The verdicts on the proofs that were finished, each under its caller.
    pub verdicts: [Option<Verdict>; MAX_CALLERS],
}

impl Checked {
    /// The callers whose proofs were finished, ascending, with their verdicts.
    pub fn finished(&self) -> impl Iterator<Item = (u32, Verdict)> + '_ {
        let verdicts = (0..).zip(&self.verdicts);
        verdicts.filter_map(|(caller, verdict)| Some((caller, (*verdict)?)))
    }
}

/// One checker for the proofs of up to 16 callers, in which a long proof does not hold up
/// the others. Each caller has at most one proof waiting. A call to
/// [`check`](SharedChecker::check) checks single instances of all that wait, one each in
/// cyclic order, until its quota is used.
///
/// All inputs lie in one buffer, which is lent to every call; the checker keeps only their
/// places. As long as their bytes stay, a verdict is the one that
/// [`check`](super::check) gives that proof alone.
///
/// ```
/// use wivulameno::proof::{prove, Counts, Places, SharedChecker, Statement};
/// use wivulameno::{Refusal, Work};
///
/// // Two depots prove that two bits of a row are both 1.
/// let circuit = [2, 1, 1, 1, 2, 2, 0, 1, 0].map(u32::to_le_bytes).concat();
/// let statement = Statement { circuit: &circuit, y: &[1], message: b"order 4711" };
/// let mut work = Work::for_every_circuit();
/// let (mut buffer, mut places) = (vec![], vec![]);
/// for (m, root) in [(64, [7; 16]), (4, [8; 16])] {
///     let counts = Counts { m, tau: 1, n: 2 };
///     let mut proof = [0; 4096];
///     let len = prove(statement, &[0b11], &root, &[9; 32], counts, &mut proof, &mut work)?;
///     places.push(Places::append(&mut buffer, statement, &proof[..len]));
/// }
///
/// // The head office: caller 1 has the short proof, and is finished first.
/// let mut checker = SharedChecker::new();
/// checker.enter(0, places[0], &buffer, &mut work)?;
/// checker.enter(1, places[1], &buffer, &mut work)?;
/// let checked = checker.check(8, &buffer, &mut work)?;
/// assert_eq!(checked.count, 8);
/// assert_eq!(checked.finished().collect::<Vec<_>>(), [(1, Ok(()))]);
/// let checked = checker.check(512, &buffer, &mut work)?;
/// assert_eq!((checked.count, checked.verdicts[0]), (60, Some(Ok(()))));
/// assert_eq!(checker.check(1, &buffer, &mut work), Err(Refusal::NoneWaiting));
/// # Ok::<(), Refusal>(())
/// ```
#[derive(Clone, PartialEq, Eq)]
pub struct SharedChecker {
    state: Box<[u8; SHARED_STATE]>,
}

impl SharedChecker {
    /// A checker with no proof waiting.
    pub fn new() -> SharedChecker {
        let mut checker = SharedChecker::from_state([0; SHARED_STATE]);
        // SAFETY: the state is of the size that is asked for.
        let status = unsafe { wv_shared_start(&mut *checker.state) };
        answer(status).expect("a start is not refused");
        checker
    }

    /// A checker that goes on from a state, which is no secret. Any bytes are some state, but
    /// only one that a checker left gives the verdicts of [`check`](super::check): keep it
    /// where only those write who may decide what is accepted.
    pub fn from_state(state: [u8; SHARED_STATE]) -> SharedChecker {
        SharedChecker {
            state: Box::new(state),
        }
    }

    /// The state between two calls.
    pub fn state(&self) -> &[u8; SHARED_STATE] {
        &self.state
    }

    /// A caller's proof waits from now on. Caller is 0 to 15; the places are in `buffer`.
    ///
    /// Refuses with 26 for another caller, 27 for one whose proof is waiting, 6 for a place
    /// that is not wholly inside the buffer, 6 for a work buffer of fewer than
    /// [`SHARED_WORK`](crate::limits::SHARED_WORK) bytes, and then as [`check`](super::check)
    /// does, but never with 10 or 13. From the test of the work buffer on, every ending
    /// leaves it all zero.
    pub fn enter<B: AsMut<[u8]>>(
        &mut self,
        caller: u32,
        places: Places,
        buffer: &[u8],
        work: &mut Work<B>,
    ) -> Result<(), Refusal> {
        let work = work.bytes();
        // SAFETY: the slices are valid for their lengths, the state and the places are of
        // their sizes, and the state and `work` overlap no other.
        answer(unsafe {
            wv_shared_enter(
                &mut *self.state,
                caller,
                &places.words(),
                buffer.as_ptr(),
                buffer.len(),
                work.as_mut_ptr(),
                work.len(),
            )
        })
    }

    /// As [`check`](SharedChecker::check), with the count and the verdicts that the C
    /// function writes: 255 for none in this call, 0 for accepted, else the number.
    pub fn check_into<B: AsMut<[u8]>>(
        &mut self,
        quota: u32,
        buffer: &[u8],
        count: &mut u32,
        verdicts: &mut [u8; MAX_CALLERS],
        work: &mut Work<B>,
    ) -> Result<(), Refusal> {
        let work = work.bytes();
        // SAFETY: the slices are valid for their lengths, and the state, `count`,
        // `verdicts` and `work` overlap no other.
        answer(unsafe {
            wv_shared_check(
                &mut *self.state,
                quota,
                buffer.as_ptr(),
                buffer.len(),
                count,
                verdicts,
                work.as_mut_ptr(),
                work.len(),
            )
        })
    }

    /// Checks up to `quota` instances of the proofs that wait, one of each in cyclic order,
    /// beginning after the caller that was served last. Tells how many were checked, and
    /// the verdicts on the proofs that were finished: by their last instance, by their
    /// first 10, or by bytes that have changed since entry so that entry would refuse them,
    /// which counts as an instance.
    ///
    /// Refuses with 8 for a quota that is not 1 to [`MAX_QUOTA`](crate::limits::MAX_QUOTA),
    /// 28 if no proof is waiting, 6 for a work buffer of fewer than
    /// [`SHARED_WORK`](crate::limits::SHARED_WORK) bytes.
    pub fn check<B: AsMut<[u8]>>(
        &mut self,
        quota: u32,
        buffer: &[u8],
        work: &mut Work<B>,
    ) -> Result<Checked, Refusal> {
        let (mut count, mut verdicts) = (0, [NONE; MAX_CALLERS]);
        self.check_into(quota, buffer, &mut count, &mut verdicts, work)?;
        let verdict = |number: u8| (number != NONE).then(|| answer(number.into()));
        Ok(Checked {
            count,
            verdicts: verdicts.map(verdict),
        })
    }
}

impl Default for SharedChecker {
    fn default() -> SharedChecker {
        SharedChecker::new()
    }
}

impl fmt::Debug for SharedChecker {
    fn fmt(&self, f: &mut fmt::Formatter) -> fmt::Result {
        f.debug_struct("SharedChecker").finish_non_exhaustive()
    }
}

#[cfg(test)]
mod tests {
    use super::*;

    #[test]
    fn places_of_a_statement() {
        let statement = Statement {
            circuit: &[1, 2, 3],
            y: &[4],
            message: &[],
        };
        let mut buffer = vec![9; 5];
        let places = Places::append(&mut buffer, statement, &[5, 6]);
        assert_eq!(buffer, [9, 9, 9, 9, 9, 1, 2, 3, 4, 5, 6]);
        assert_eq!(places.words(), [5, 3, 8, 1, 9, 0, 9, 2]);
    }

    #[test]
    fn finished_callers() {
        let mut verdicts = [None; MAX_CALLERS];
        verdicts[3] = Some(Err(Refusal::Output));
        verdicts[15] = Some(Ok(()));
        let checked = Checked { count: 9, verdicts };
        let finished: Vec<_> = checked.finished().collect();
        assert_eq!(finished, [(3, Err(Refusal::Output)), (15, Ok(()))]);
    }
}
