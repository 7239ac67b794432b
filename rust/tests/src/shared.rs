//! Both shared checkers side by side: answers and every lent byte are compared.

use crate::calls::Setting;
use crate::guarded::Guarded;
use crate::proofs::{Check, Prove};
use crate::random::Random;
use reference::shared::{Answer, Places, Shared, CALLERS};
use std::array::from_fn;
use wivulameno::proof::{Place, SharedChecker};
use wivulameno::{Refusal, Work};

/// What document 02 asks of the work buffer.
pub const WORK: usize = 6_436_864;

/// The places as the library is lent them.
pub fn lent(places: Places) -> wivulameno::proof::Places {
    let [circuit, y, message, proof] = places.map(|[start, len]| Place { start, len });
    wivulameno::proof::Places {
        circuit,
        y,
        message,
        proof,
    }
}

/// Puts the inputs of a check at the end of a buffer, and tells where.
pub fn append(buffer: &mut Vec<u8>, check: &Check) -> Places {
    let inputs = [&check.circuit, &check.y, &check.message, &check.proof];
    inputs.map(|input| {
        let place = [buffer.len() as u64, input.len() as u64];
        buffer.extend(input);
        place
    })
}

/// Is a place not wholly inside a buffer of so many bytes?
pub fn is_outside(places: Places, len: usize) -> bool {
    let end = |[start, len]: [u64; 2]| u128::from(start) + u128::from(len);
    places.iter().any(|&place| end(place) > len as u128)
}

/// A proof of any circuit of these sizes with these M, tau and n, and its check.
pub fn proved(random: &mut Random, sizes: [usize; 3], [m, tau, n]: [u32; 3]) -> Check {
    let setting = Setting::of_sizes(random, sizes, n);
    let call = Prove::of(random, &setting, [m, tau], 7);
    call.check(&call.by_reference().expect("proved"))
}

/// Two honest proofs of one statement from one root, of 8 and of 5 instances, that have
/// the same length. The masters of both are leaves of one tree, so the first five
/// instances have the same digests in both.
pub fn of_eight_and_of_five(random: &mut Random) -> [Check; 2] {
    loop {
        let setting = Setting::of_sizes(random, [384, 248, 8], 2);
        let call = Prove::of(random, &setting, [8, 1], 5);
        let checks = [[8, 1], [5, 2]].map(|[m, tau]| {
            let call = Prove {
                counts: [m, tau, 2],
                proof_len: 10_000,
                ..call.clone()
            };
            call.check(&call.by_reference().expect("proved"))
        });
        if checks[0].proof.len() == checks[1].proof.len() {
            return checks;
        }
    }
}

/// The answer to a call as the C function gives it: 255 for no verdict.
pub fn verdict_bytes(answer: &Answer) -> [u8; CALLERS] {
    answer.verdicts.map(|verdict| match verdict {
        None => 255,
        Some(verdict) => verdict.err().unwrap_or(0) as u8,
    })
}

/// Who was finished in a call, with 0 or the number.
pub fn finished(answer: &Answer) -> Vec<(usize, u32)> {
    let verdicts = answer.verdicts.iter().enumerate();
    let number = |verdict: Result<(), u32>| verdict.err().unwrap_or(0);
    verdicts
        .filter_map(|(caller, verdict)| Some((caller, number((*verdict)?))))
        .collect()
}

/// A work buffer that is filled again for each call, with bytes beside it.
pub struct LongWork {
    bytes: Vec<u8>,
    pattern: Vec<u8>,
    lent: usize,
}

const BESIDE: usize = 64;

impl LongWork {
    pub fn new(random: &mut Random) -> LongWork {
        LongWork {
            bytes: vec![],
            pattern: random.bytes(4096),
            lent: 0,
        }
    }

    /// A part of so many bytes, none of which is known to be zero.
    pub fn lend(&mut self, len: usize) -> &mut [u8] {
        self.lent = len;
        self.bytes.resize(len + 2 * BESIDE, 0);
        for part in self.bytes.chunks_mut(self.pattern.len()) {
            part.copy_from_slice(&self.pattern[..part.len()]);
        }
        &mut self.bytes[BESIDE..][..len]
    }

    /// Is the lent part as it was, or else all zero, and all beside it as it was?
    pub fn expect(&self, untouched: bool, shown: &str) {
        for (chunk, part) in self.bytes.chunks(self.pattern.len()).enumerate() {
            let first = chunk * self.pattern.len();
            let inside = BESIDE.max(first)..(BESIDE + self.lent).min(first + part.len());
            let mut expected = self.pattern[..part.len()].to_vec();
            if !untouched && !inside.is_empty() {
                expected[inside.start - first..inside.end - first].fill(0);
            }
            assert!(part == expected, "work near {first}, {shown}");
        }
    }
}

/// The library's checker and the reference's, with the same history.
pub struct Both {
    ours: SharedChecker,
    second: Shared,
    work: LongWork,
    second_work: Vec<u8>,
    waiting: [bool; CALLERS],
}

impl Both {
    pub fn new(random: &mut Random) -> Both {
        Both {
            ours: SharedChecker::new(),
            second: Shared::default(),
            work: LongWork::new(random),
            second_work: vec![],
            waiting: [false; CALLERS],
        }
    }

    /// Who waits, as far as the answers tell.
    pub fn waiting(&self) -> [bool; CALLERS] {
        self.waiting
    }

    /// Both checkers as they are, to go on with in another way.
    pub fn state(&self) -> (SharedChecker, Shared, [bool; CALLERS]) {
        (self.ours.clone(), self.second.clone(), self.waiting)
    }

    /// Goes on from a state that both had.
    pub fn set_state(&mut self, state: (SharedChecker, Shared, [bool; CALLERS])) {
        (self.ours, self.second, self.waiting) = state;
    }

    /// Enters a proof with a work buffer that is just long enough.
    pub fn enter(
        &mut self,
        random: &mut Random,
        caller: u32,
        places: Places,
        buffer: &[u8],
    ) -> Result<(), u32> {
        self.enter_with(random, caller, places, buffer, WORK)
    }

    /// Enters a proof by both; gives their answer.
    pub fn enter_with(
        &mut self,
        random: &mut Random,
        caller: u32,
        places: Places,
        buffer: &[u8],
        work_len: usize,
    ) -> Result<(), u32> {
        let shown = format!(
            "caller {caller}, places {places:?}, buffer of {}, work of {work_len}",
            buffer.len()
        );
        let buffer = Guarded::holding(random, buffer);
        let waits = self.waiting.get(caller as usize).copied();
        let untouched =
            waits != Some(false) || is_outside(places, buffer.get().len()) || work_len < WORK;

        let mut second = self.second.clone();
        let lent_work = self.for_second(work_len);
        let expected = second.enter(caller, places, buffer.get(), lent_work);
        assert!(expected.is_ok() || second == self.second, "{shown}");
        self.expect_second(untouched, &shown);

        let before = *self.ours.state();
        let work = &mut Work::lent(self.work.lend(work_len));
        let answer = self.ours.enter(caller, lent(places), buffer.get(), work);
        assert_eq!(answer.map_err(Refusal::number), expected, "{shown}");
        assert!(
            answer.is_ok() || *self.ours.state() == before,
            "refused, {shown}"
        );
        self.work.expect(untouched, &shown);
        assert!(buffer.unchanged(), "the buffer, {shown}");
        if expected.is_ok() {
            self.waiting[caller as usize] = true;
        }
        self.second = second;
        expected
    }

    /// A call with a work buffer that is just long enough.
    pub fn check(&mut self, random: &mut Random, quota: u32, buffer: &[u8]) -> Result<Answer, u32> {
        self.check_with(random, quota, buffer, WORK)
    }

    /// Calls both; gives their answer.
    pub fn check_with(
        &mut self,
        random: &mut Random,
        quota: u32,
        buffer: &[u8],
        work_len: usize,
    ) -> Result<Answer, u32> {
        let shown = format!(
            "quota {quota}, buffer of {}, work of {work_len}",
            buffer.len()
        );
        let buffer = Guarded::holding(random, buffer);
        let in_limits = (1..=512).contains(&quota);
        let untouched = !in_limits || !self.waiting.contains(&true) || work_len < WORK;

        let mut second = self.second.clone();
        let lent_work = self.for_second(work_len);
        let expected = second.check(quota, buffer.get(), lent_work);
        assert!(expected.is_ok() || second == self.second, "{shown}");
        self.expect_second(untouched, &shown);

        let before = *self.ours.state();
        let counts_before = [0; 3].map(|_| random.word() as u32);
        let mut counts = counts_before;
        let verdicts_before: [u8; CALLERS] = from_fn(|_| random.word() as u8);
        let mut verdicts = verdicts_before;
        let work = &mut Work::lent(self.work.lend(work_len));
        let checker = &mut self.ours;
        let answer = checker.check_into(quota, buffer.get(), &mut counts[1], &mut verdicts, work);
        let number = answer.map_err(Refusal::number);
        let told = expected.as_ref().map(|_| ()).map_err(|number| *number);
        assert_eq!(number, told, "{shown}");
        let count = expected.as_ref().map(|answer| answer.services);
        let count = count.unwrap_or(counts_before[1]);
        assert_eq!(
            counts,
            [counts_before[0], count, counts_before[2]],
            "{shown}"
        );
        let expected_verdicts = expected.as_ref().map(verdict_bytes);
        let expected_verdicts = expected_verdicts.unwrap_or(verdicts_before);
        assert_eq!(verdicts, expected_verdicts, "{shown}");
        assert!(
            answer.is_ok() || *self.ours.state() == before,
            "refused, {shown}"
        );
        self.work.expect(untouched, &shown);
        assert!(buffer.unchanged(), "the buffer, {shown}");
        for (caller, _) in expected.iter().flat_map(finished) {
            self.waiting[caller] = false;
        }
        self.second = second;
        expected
    }

    /// The reference's work buffer, filled again.
    fn for_second(&mut self, len: usize) -> &mut [u8] {
        self.second_work.clear();
        self.second_work.resize(len, 0x5a);
        &mut self.second_work
    }

    fn expect_second(&self, untouched: bool, shown: &str) {
        let byte = if untouched { 0x5a } else { 0 };
        let good = self.second_work.iter().all(|&found| found == byte);
        assert!(good, "the reference's work, {shown}");
    }
}
