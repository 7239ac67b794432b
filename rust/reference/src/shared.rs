//! One checker that up to 16 callers share: each has at most one proof waiting, and a
//! call checks single instances of all that wait, in cyclic order.

use crate::circuit::{Sizes, MOST_GATES, MOST_INPUTS, MOST_OUTPUTS};
use crate::proof::{Checkable, Statement};
use crate::seeds::Digest;
use crate::work::{work_len, Work};
use crate::Refusal;

pub const CALLERS: usize = 16;

const LARGEST: Sizes = Sizes {
    inputs: MOST_INPUTS,
    outputs: MOST_OUTPUTS,
    gates: MOST_GATES,
    ands: MOST_GATES,
};

/// Where an input lies in the lent buffer: its start and its length.
pub type Place = [u64; 2];

/// The places of the circuit, of y, of the message and of the proof.
pub type Places = [Place; 4];

/// A verdict on a proof: accepted, or its number.
pub type Verdict = Result<(), Refusal>;

/// The answer to a call: the instances that were checked in it, and the verdicts on the
/// proofs that were finished in it, each under its caller.
#[derive(Clone, Debug, PartialEq, Eq)]
pub struct Answer {
    pub services: u32,
    pub verdicts: [Option<Verdict>; CALLERS],
}

/// The state between two calls. The empty one is the default.
#[derive(Clone, Debug, Default, PartialEq, Eq)]
pub struct Shared {
    last: Option<usize>,
    waiting: [Option<Job>; CALLERS],
}

/// A proof that waits, with h_j and h'_j of the instances that were checked: the next
/// instance is as many.
#[derive(Clone, Debug, PartialEq, Eq)]
struct Job {
    places: Places,
    digests: Vec<[Digest; 2]>,
}

impl Shared {
    /// A caller's proof waits from now on: 26, 27, 6 for a place, 6 for `work`, then the
    /// refusals of check but 10 and 13.
    pub fn enter(
        &mut self,
        caller: u32,
        places: Places,
        buffer: &[u8],
        work: &mut [u8],
    ) -> Result<(), Refusal> {
        let waiting = self.waiting.get_mut(caller as usize).ok_or(26_u32)?;
        if waiting.is_some() {
            return Err(27);
        }
        inputs(places, buffer)?;
        let _work = Work::of_len(work_len(LARGEST), work)?;
        entered(places, buffer)?;
        *waiting = Some(Job {
            places,
            digests: vec![],
        });
        Ok(())
    }

    /// Serves those who wait, one instance each in cyclic order, until the quota is used
    /// or all are finished: 8, 28, then 6 for `work`.
    pub fn check(&mut self, quota: u32, buffer: &[u8], work: &mut [u8]) -> Result<Answer, Refusal> {
        if !(1..=512).contains(&quota) {
            return Err(8);
        }
        self.next_caller().ok_or(28_u32)?;
        let _work = Work::of_len(work_len(LARGEST), work)?;
        let mut answer = Answer {
            services: 0,
            verdicts: [None; CALLERS],
        };
        // The buffer stays as it is within a call, so entry's tests are made once.
        let mut proofs = [const { None }; CALLERS];
        while answer.services < quota {
            let Some(caller) = self.next_caller() else {
                break;
            };
            let waiting = &mut self.waiting[caller];
            let job = waiting.as_mut().expect("one who waits");
            let proof = proofs[caller].get_or_insert_with(|| entered(job.places, buffer));
            let verdict = job.serve(proof);
            if verdict.is_some() {
                *waiting = None;
            }
            self.last = Some(caller);
            answer.services += 1;
            answer.verdicts[caller] = verdict;
        }
        Ok(answer)
    }

    /// The first who waits after the one that was served last, or from 0 on.
    fn next_caller(&self) -> Option<usize> {
        let first = self.last.map_or(0, |last| last + 1);
        let mut order = (first..first + CALLERS).map(|caller| caller % CALLERS);
        order.find(|&caller| self.waiting[caller].is_some())
    }
}

impl Job {
    /// Checks the next instance of what its places hold; gives the verdict if this
    /// finishes the proof.
    fn serve(&mut self, proof: &Result<Checkable, Refusal>) -> Option<Verdict> {
        let proof = match proof {
            Ok(proof) => proof,
            Err(number) => return Some(Err(*number)),
        };
        let next = self.digests.len();
        if next >= proof.instances() {
            return Some(Err(13));
        }
        match proof.instance(next) {
            Ok(digests) => self.digests.push(digests),
            Err(number) => return Some(Err(number)),
        }
        let is_last = next + 1 == proof.instances();
        is_last.then(|| proof.fits(&self.digests))
    }
}

/// The circuit, y, the message and the proof; 6 if a place is not wholly inside the
/// buffer.
fn inputs(places: Places, buffer: &[u8]) -> Result<[&[u8]; 4], Refusal> {
    let mut inputs = [&buffer[..0]; 4];
    for (input, [start, len]) in inputs.iter_mut().zip(places) {
        let end = start.checked_add(len).ok_or(6_u32)?;
        if end > buffer.len() as u64 {
            return Err(6);
        }
        *input = &buffer[start as usize..end as usize];
    }
    Ok(inputs)
}

/// The proof at these places, if entry does not refuse them.
fn entered(places: Places, buffer: &[u8]) -> Result<Checkable<'_>, Refusal> {
    let [circuit, y, message, proof] = inputs(places, buffer)?;
    let statement = Statement {
        circuit,
        y,
        message,
    };
    Checkable::of(statement, proof)
}

#[cfg(test)]
mod tests {
    use super::*;
    use crate::examples::FOUR;
    use crate::proof::{check, longest, prove, Counts};
    use std::array::from_fn;

    const LEN: usize = 6_436_864;

    /// A buffer with the circuit `FOUR`, its output 6 for the witness 6, a message, and a
    /// proof for each of some numbers of instances.
    struct Desk {
        buffer: Vec<u8>,
        places: Vec<Places>,
        work: Vec<u8>,
    }

    impl Desk {
        fn with(instances: &[u32]) -> Desk {
            let statement = Statement {
                circuit: &FOUR,
                y: &[6],
                message: b"order",
            };
            let sizes = crate::circuit::read(&FOUR).expect("a circuit");
            let mut buffer = [&FOUR[..], &[6], b"order"].concat();
            let mut places = vec![];
            for &m in instances {
                let counts = Counts { m, tau: 1, n: 2 };
                let mut proof = vec![0; longest(sizes, counts)];
                let work = &mut vec![0; work_len(sizes)];
                let len = prove(
                    statement,
                    &[6],
                    &[m as u8; 16],
                    &[9; 32],
                    counts,
                    &mut proof,
                    work,
                );
                let [start, len] = [buffer.len(), len.expect("proved")];
                let proof_place = [start as u64, len as u64];
                buffer.extend(&proof[..len]);
                places.push([[0, 92], [92, 1], [93, 5], proof_place]);
            }
            Desk {
                buffer,
                places,
                work: vec![0xa5; LEN],
            }
        }

        fn enter(&mut self, shared: &mut Shared, caller: u32, which: usize) -> Verdict {
            self.work.fill(0xa5);
            shared.enter(caller, self.places[which], &self.buffer, &mut self.work)
        }

        /// The instances of a call, and who was finished in it.
        fn check(&mut self, shared: &mut Shared, quota: u32) -> (u32, Vec<(usize, Verdict)>) {
            self.work.fill(0xa5);
            let answer = shared.check(quota, &self.buffer, &mut self.work);
            assert!(self.work.iter().all(|&byte| byte == 0));
            let Answer { services, verdicts } = answer.expect("no refusal");
            let verdicts = verdicts.into_iter().enumerate();
            let finished = verdicts.filter_map(|(caller, verdict)| Some((caller, verdict?)));
            (services, finished.collect())
        }
    }

    /// Callers 3, 0 and 15 have 2, 4 and 3 instances, so the services are 0, 3, 15, 0,
    /// 3, 15, 0, 15, 0.
    #[test]
    fn one_instance_each_in_cyclic_order() {
        let mut desk = Desk::with(&[2, 4, 3]);
        let mut shared = Shared::default();
        for (which, caller) in [3, 0, 15].into_iter().enumerate() {
            assert_eq!(desk.enter(&mut shared, caller, which), Ok(()));
            assert!(desk.work.iter().all(|&byte| byte == 0));
        }
        assert_eq!(desk.check(&mut shared, 4), (4, vec![]));
        assert_eq!(desk.check(&mut shared, 1), (1, vec![(3, Ok(()))]));
        assert_eq!(desk.check(&mut shared, 2), (2, vec![]));
        let both = vec![(0, Ok(())), (15, Ok(()))];
        assert_eq!(desk.check(&mut shared, 512), (2, both));
        assert_eq!(shared.check(512, &desk.buffer, &mut []), Err(28));
        // 0 was served last, and that is remembered: 15 comes before 0.
        for caller in [0, 15] {
            assert_eq!(desk.enter(&mut shared, caller, 0), Ok(()));
        }
        assert_eq!(desk.check(&mut shared, 3), (3, vec![(15, Ok(()))]));
        assert_eq!(desk.check(&mut shared, 1), (1, vec![(0, Ok(()))]));
    }

    /// Each changed byte of a proof: refused on entry, or the verdict of check alone.
    #[test]
    fn verdicts_are_those_of_check() {
        let mut desk = Desk::with(&[3]);
        let [start, len] = desk.places[0][3].map(|number| number as usize);
        for place in start..start + len {
            desk.buffer[place] ^= 1;
            let statement = Statement {
                circuit: &FOUR,
                y: &[6],
                message: b"order",
            };
            let proof = &desk.buffer[start..start + len];
            let alone = check(statement, proof, &mut vec![0; LEN]);
            let mut shared = Shared::default();
            match desk.enter(&mut shared, 7, 0) {
                Ok(()) => assert_eq!(desk.check(&mut shared, 3).1, [(7, alone)]),
                Err(number) => assert!(alone == Err(number) && ![10, 13].contains(&number)),
            }
            desk.buffer[place] ^= 1;
        }
    }

    #[test]
    fn refusals_in_order() {
        let mut desk = Desk::with(&[2]);
        let mut shared = Shared::default();
        let outside: Places = [[u64::MAX, 1], [0, 0], [0, 0], [0, 0]];
        let mut ask = |shared: &mut Shared, caller, places, len: usize| {
            desk.work.fill(0xa5);
            let before = shared.clone();
            let answer = shared.enter(caller, places, &desk.buffer, &mut desk.work[..len]);
            assert!(answer.is_ok() || *shared == before);
            let byte = match answer {
                // No place is inside, or the buffer is too short.
                Err(6 | 26 | 27) => 0xa5,
                _ => 0,
            };
            assert!(desk.work[..len].iter().all(|&found| found == byte));
            answer
        };
        let good = desk.places[0];
        let none: Places = [[0, 0]; 4];
        assert_eq!(ask(&mut shared, 16, outside, 0), Err(26));
        assert_eq!(ask(&mut shared, u32::MAX, good, LEN), Err(26));
        assert_eq!(ask(&mut shared, 15, outside, LEN), Err(6));
        assert_eq!(ask(&mut shared, 15, none, LEN - 1), Err(6));
        assert_eq!(ask(&mut shared, 15, none, LEN), Err(1));
        assert_eq!(ask(&mut shared, 15, good, LEN), Ok(()));
        assert_eq!(ask(&mut shared, 15, outside, 0), Err(27));
        let mut check = |quota, len: usize| {
            let before = shared.clone();
            let answer = shared.check(quota, &desk.buffer, &mut vec![0xa5; len]);
            assert!(answer.is_ok() || shared == before);
            answer.map(|answer| answer.services)
        };
        assert_eq!((check(0, 0), check(513, LEN)), (Err(8), Err(8)));
        assert_eq!((check(1, LEN - 1), check(512, LEN)), (Err(6), Ok(2)));
        assert_eq!((check(513, 0), check(1, 0)), (Err(8), Err(28)));
    }

    /// An empty place may lie at the buffer's end, but not beyond it.
    #[test]
    fn places() {
        let buffer = [1, 2, 3];
        let at = |place| inputs([[0, 0], [1, 2], place, [0, 3]], &buffer).map(|all| all[2]);
        assert_eq!(at([3, 0]), Ok(&[][..]));
        assert_eq!(at([2, 1]), Ok(&[3][..]));
        for outside in [[4, 0], [2, 2], [3, 1], [0, 4], [1, u64::MAX], [u64::MAX, 1]] {
            assert_eq!(at(outside), Err(6), "{outside:?}");
        }
    }

    /// Bytes that entry would refuse finish a proof, counted as an instance.
    #[test]
    fn changed_bytes() {
        let mut desk = Desk::with(&[4, 4]);
        let mut shared = Shared::default();
        for caller in [0, 1] {
            assert_eq!(desk.enter(&mut shared, caller, caller as usize), Ok(()));
        }
        assert_eq!(desk.check(&mut shared, 2), (2, vec![]));
        desk.buffer.truncate(desk.places[1][3][0] as usize);
        assert_eq!(desk.check(&mut shared, 2), (2, vec![(1, Err(6))]));
        desk.buffer[92] |= 8;
        assert_eq!(desk.check(&mut shared, 9), (1, vec![(0, Err(7))]));
        assert_eq!(shared.check(1, &desk.buffer, &mut desk.work), Err(28));
        assert_eq!(shared.waiting, from_fn(|_| None));
    }
}
