//! The shared checker with pages around each lent buffer that may not be touched, from
//! states that it has left and from states of any bytes.

use reference::shared::{Answer, Places, Shared, CALLERS};
use tests::outcomes::Outcomes;
use tests::paged::{Edge, Paged};
use tests::proofs::{Check, HEADER};
use tests::random::Random;
use tests::shared::{append, finished, is_outside, proved, verdict_bytes, WORK};
use wivulameno::limits::SHARED_STATE;

/// The C functions themselves, so that the state too lies between such pages.
mod c {
    extern "C" {
        pub fn wv_shared_start(state: *mut u8) -> u32;
        pub fn wv_shared_enter(
            state: *mut u8,
            caller: u32,
            places: *const u64,
            buffer: *const u8,
            buffer_len: usize,
            work: *mut u8,
            work_len: usize,
        ) -> u32;
        pub fn wv_shared_check(
            state: *mut u8,
            quota: u32,
            buffer: *const u8,
            buffer_len: usize,
            checked: *mut u32,
            verdicts: *mut u8,
            work: *mut u8,
            work_len: usize,
        ) -> u32;
    }
}

const ENTRIES: &[u32] = &[0, 1, 2, 3, 5, 6, 7, 11, 12, 19, 20, 21, 27];
const VERDICTS: &[u32] = &[0, 1, 2, 3, 5, 6, 7, 10, 11, 12, 13, 19, 20, 21];

/// The state between pages, and the buffer and the work buffer at each end of such pages.
struct Lent {
    state: Paged,
    buffer: [Paged; 2],
    work: [Paged; 2],
    byte: u8,
}

impl Lent {
    fn new(random: &mut Random, state: &[u8], buffer: &[u8]) -> Lent {
        let edges = [Edge::Start, Edge::End];
        let mut buffer = edges.map(|edge| Paged::holding(buffer, edge));
        buffer.iter_mut().for_each(Paged::close);
        let work = edges.map(|edge| Paged::holding(&vec![0; WORK], edge));
        let state = Paged::holding(state, random.pick(&edges));
        let byte = 0;
        Lent {
            state,
            buffer,
            work,
            byte,
        }
    }

    fn start(&mut self) {
        // SAFETY: the state is of its size.
        assert_eq!(
            unsafe { c::wv_shared_start(self.state.lent().as_mut_ptr()) },
            0
        );
        assert!(self.state.rest_is_unchanged());
    }

    /// Lends another state.
    fn set_state(&mut self, random: &mut Random, state: &[u8]) {
        let edge = random.pick(&[Edge::Start, Edge::End]);
        self.state = Paged::holding(state, edge);
    }

    /// Fills the work buffers with a byte that is not zero, and picks one.
    fn fill(&mut self, random: &mut Random) -> usize {
        self.byte = self.byte.wrapping_add(1).max(1);
        let which = random.below(2);
        self.work[which].lent().fill(self.byte);
        which
    }

    /// Is all as it should be: the work buffer, the bytes beside each, and the state if
    /// the call was refused?
    fn expect(&mut self, which: usize, untouched: bool, before: &[u8], refused: bool) {
        let byte = if untouched { self.byte } else { 0 };
        let work = &mut self.work[which];
        assert!(work.get().iter().all(|&found| found == byte), "work");
        assert!(work.rest_is_unchanged() && self.state.rest_is_unchanged());
        assert!(!refused || self.state.get() == before, "a refusal's state");
    }

    fn enter(&mut self, random: &mut Random, caller: u32, places: Places) -> Result<(), u32> {
        let which = self.fill(random);
        let buffer = self.buffer[random.below(2)].get();
        let before = self.state.get().to_vec();
        let bytes: Vec<u8> = places
            .concat()
            .iter()
            .flat_map(|word| word.to_ne_bytes())
            .collect();
        let mut words = Paged::holding(&bytes, random.pick(&[Edge::Start, Edge::End]));
        words.close();
        // SAFETY: all are valid for their lengths, and the eight words are aligned.
        let number = unsafe {
            c::wv_shared_enter(
                self.state.lent().as_mut_ptr(),
                caller,
                words.get().as_ptr().cast(),
                buffer.as_ptr(),
                buffer.len(),
                self.work[which].lent().as_mut_ptr(),
                WORK,
            )
        };
        let outside = is_outside(places, buffer.len());
        let untouched = [26, 27].contains(&number) || outside;
        self.expect(which, untouched, &before, number != 0);
        if number == 0 {
            Ok(())
        } else {
            Err(number)
        }
    }

    /// The count and the verdicts.
    fn check(&mut self, random: &mut Random, quota: u32) -> Result<(u32, [u8; CALLERS]), u32> {
        let which = self.fill(random);
        let buffer = self.buffer[random.below(2)].get();
        let before = self.state.get().to_vec();
        let mut edge = || random.pick(&[Edge::Start, Edge::End]);
        let mut count = Paged::holding(&[0xee; 4], edge());
        let mut verdicts = Paged::holding(&[0xee; CALLERS], edge());
        // SAFETY: all are valid for their lengths, and the count is aligned.
        let number = unsafe {
            c::wv_shared_check(
                self.state.lent().as_mut_ptr(),
                quota,
                buffer.as_ptr(),
                buffer.len(),
                count.lent().as_mut_ptr().cast(),
                verdicts.lent().as_mut_ptr(),
                self.work[which].lent().as_mut_ptr(),
                WORK,
            )
        };
        self.expect(which, [8, 28].contains(&number), &before, number != 0);
        assert!(count.rest_is_unchanged() && verdicts.rest_is_unchanged());
        let found: [u8; CALLERS] = verdicts.get().try_into().expect("16");
        if number != 0 {
            assert_eq!((count.get(), found), (&[0xee; 4][..], [0xee; CALLERS]));
            return Err(number);
        }
        let count = u32::from_ne_bytes(count.get().try_into().expect("4 bytes"));
        Ok((count, found))
    }
}

/// Some proofs of different circuits, one after the other with nothing behind them, and
/// damaged ones among them.
fn a_buffer(random: &mut Random) -> (Vec<u8>, Vec<Places>) {
    let mut buffer = vec![];
    let counts = [[2, 1, 2], [6, 3, 4], [9, 2, 8], [4, 3, 16], [12, 4, 2]];
    let mut all: Vec<Check> = counts
        .map(|counts| proved(random, [6, 3, 8], counts))
        .into();
    for which in 0..5 {
        let mut check = all[which].clone();
        let last = check.proof.len() - 1;
        check.proof[random.from_to(HEADER, last)] ^= 1;
        all.push(check);
    }
    let places = all.iter().map(|check| append(&mut buffer, check)).collect();
    (buffer, places)
}

/// A history between pages, beside the reference.
#[test]
fn histories() {
    let mut random = Random::new(0x9d1);
    let (buffer, all) = a_buffer(&mut random);
    let mut lent = Lent::new(&mut random, &[0xee; SHARED_STATE], &buffer);
    lent.start();
    let mut second = Shared::default();
    let mut work = vec![0; WORK];
    let [mut entries, mut verdicts] = [(); 2].map(|()| Outcomes::default());
    for _ in 0..400 {
        if random.once_in(2) {
            let caller = random.below(17) as u32;
            let mut places = random.pick(&all);
            if random.once_in(6) {
                let len = buffer.len() as u64;
                let place = [
                    [len, 0],
                    [len, 1],
                    [len + 1, 0],
                    [u64::MAX, 2],
                    [3, len - 3],
                ];
                places[random.below(4)] = random.pick(&place);
            }
            let answer = lent.enter(&mut random, caller, places);
            assert_eq!(answer, second.enter(caller, places, &buffer, &mut work));
            entries.add_answer(&answer);
        } else {
            let quota = random.pick(&[0, 1, 1, 2, 5, 16, 512, 513]);
            let answer = lent.check(&mut random, quota);
            let expected = second.check(quota, &buffer, &mut work);
            let told = |answer: &Answer| (answer.services, verdict_bytes(answer));
            assert_eq!(
                answer,
                expected.as_ref().map(told).map_err(|number| *number)
            );
            let ended = expected.iter().flat_map(finished);
            ended.for_each(|(_, number)| verdicts.add(number));
        }
    }
    entries.expect_some(&[0, 6, 26, 27], 5);
    verdicts.expect(&[0, 10, 13], 3);
}

/// A state that a history has left, as bytes.
fn a_state(random: &mut Random, lent: &mut Lent, all: &[Places]) -> Vec<u8> {
    lent.start();
    for caller in 0..16 {
        if random.once_in(2) {
            let places = random.pick(all);
            let answer = lent.enter(random, caller, places);
            assert!(answer.is_ok());
        }
    }
    let quota = random_quota(random);
    expect_in_bounds(lent.check(random, quota), quota);
    lent.state.get().to_vec()
}

fn random_quota(random: &mut Random) -> u32 {
    random.pick(&[1, 3, 16, 20])
}

/// Any bytes are some state: entries and calls answer within their bounds, and nothing
/// beside what they may write is written.
#[test]
fn states_of_any_bytes() {
    let mut random = Random::new(0x9d2);
    let (buffer, all) = a_buffer(&mut random);
    let mut lent = Lent::new(&mut random, &[0; SHARED_STATE], &buffer);
    let [mut entries, mut verdicts] = [(); 2].map(|()| Outcomes::default());
    for round in 0..120 {
        let state = match round % 6 {
            0 => random.bytes(SHARED_STATE),
            1 => vec![random.pick(&[0, 1, 0x7f, 0x80, 0xff]); SHARED_STATE],
            changes => {
                let mut state = a_state(&mut random, &mut lent, &all);
                for _ in 0..1 << (2 * changes) {
                    let place = random.below(SHARED_STATE);
                    let any = random.word() as u8;
                    state[place] = random.pick(&[0, 1, 16, 136, 255, any]);
                }
                state
            }
        };
        lent.set_state(&mut random, &state);
        for _ in 0..3 {
            let [caller, which] = [16, all.len()].map(|bound| random.below(bound));
            let answer = lent.enter(&mut random, caller as u32, all[which]);
            assert!(ENTRIES.contains(&answer.err().unwrap_or(0)), "{answer:?}");
            entries.add_answer(&answer);
            let quota = random_quota(&mut random);
            let answer = lent.check(&mut random, quota);
            expect_in_bounds(answer, quota);
            let told = answer.iter().flat_map(|(_, verdicts)| verdicts);
            told.for_each(|&number| verdicts.add(number.into()));
        }
        // No proof has more than 512 instances, so 16 calls are enough for all.
        let calls = (0..17).take_while(|_| {
            let answer = lent.check(&mut random, 512);
            expect_in_bounds(answer, 512);
            answer.is_ok()
        });
        assert!(calls.count() <= 16, "round {round}");
        assert_eq!(lent.check(&mut random, 1), Err(28));
        // What is then entered gets its own verdict.
        assert_eq!(lent.enter(&mut random, 15, all[1]), Ok(()));
        let (count, verdicts) = lent.check(&mut random, 512).expect("no refusal");
        assert_eq!((count, verdicts[15]), (6, 0));
    }
    entries.expect_some(&[0, 27], 20);
    // Places of any bytes lie outside; some waiting proofs are as they were.
    verdicts.expect_some(&[0, 6, 10, 13, 255], 5);
}

/// Does a call with a good quota answer what a call can answer?
fn expect_in_bounds(answer: Result<(u32, [u8; CALLERS]), u32>, quota: u32) {
    match answer {
        Ok((count, verdicts)) => {
            assert!((1..=quota).contains(&count), "{count} of {quota}");
            let known = |&number: &u8| number == 255 || VERDICTS.contains(&number.into());
            assert!(verdicts.iter().all(known), "{verdicts:?}");
        }
        Err(number) => assert_eq!(number, 28),
    }
}
