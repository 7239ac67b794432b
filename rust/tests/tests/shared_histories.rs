//! Random histories of the shared checker: entries and calls by up to 16 callers, with good
//! and damaged proofs of different lengths.

use reference::proof::Checkable;
use reference::shared::{Places, CALLERS};
use tests::calls::{Setting, COUNTS};
use tests::circuits::{damaged, faults_of_five, FIVE};
use tests::office::Office;
use tests::outcomes::Outcomes;
use tests::proofs::{Check, Prove, HEADER};
use tests::random::Random;
use tests::shared::{append, finished, of_eight_and_of_five, WORK};

const EVENTS: usize = 1_000;

/// A check, and what becomes of it alone: its answer, and how many instances it takes.
struct Known {
    check: Check,
    alone: Result<(), u32>,
    services: u32,
}

impl Known {
    fn of(mut check: Check) -> Known {
        // The work buffer is enough for a changed circuit, too.
        check.work_len = WORK;
        let alone = check.by_reference();
        let services = match Checkable::of(check.statement(), &check.proof) {
            Ok(proof) => {
                let mut all = 0..proof.instances();
                let wrong = all.find(|&j| proof.instance(j).is_err());
                wrong.map_or(proof.instances(), |j| j + 1) as u32
            }
            Err(_) => 0,
        };
        Known {
            check,
            alone,
            services,
        }
    }

    fn is_entered(&self) -> bool {
        matches!(self.alone, Ok(()) | Err(10 | 13))
    }
}

/// A proof of any circuit with up to so many instances.
fn any_proof(random: &mut Random, most: usize) -> (Setting, Check) {
    let n = random.pick(&COUNTS);
    let sizes = [1, 1, 0].map(|least| random.from_to(least, least + 9));
    let setting = Setting::of_sizes(random, sizes, n);
    let m = random.from_to(2, most);
    let counts = [m, random.from_to(1, m - 1)].map(|count| count as u32);
    let call = Prove::of(random, &setting, counts, 6);
    let check = call.check(&call.by_reference().expect("proved"));
    (setting, check)
}

/// Proofs of up to so many instances: some good, and some with one thing wrong.
fn pool(random: &mut Random, count: usize, most: usize) -> Vec<Known> {
    let one = |k| {
        let (setting, mut check) = any_proof(random, most);
        let last = check.proof.len() - 1;
        match k % 14 {
            0 => check.circuit = damaged(random, &setting.file, &setting.slots),
            1 => check.y.push(0),
            2 => check.message = vec![0; 4097],
            3 => check.proof.truncate(random.below(last)),
            4 => check.proof[random.below(6)] ^= 1,
            5 | 6 => check.proof[random.from_to(HEADER, last)] ^= 1 << random.below(8),
            7 => check.proof[last] ^= 0x80,
            _ => {}
        }
        Known::of(check)
    };
    (0..count).map(one).collect()
}

/// A proof with each fault that a circuit can have.
fn of_faulty_circuits(random: &mut Random) -> Vec<Known> {
    let setting = Setting::of_circuit(random, &FIVE, 2);
    let call = Prove::of(random, &setting, [3, 1], 6);
    let check = call.check(&call.by_reference().expect("proved"));
    let faulty = faults_of_five().into_iter().map(|(_, circuit)| Check {
        circuit,
        ..check.clone()
    });
    faulty.map(Known::of).collect()
}

/// A quota, of all sizes.
fn any_quota(random: &mut Random) -> u32 {
    random.pick(&[1, 1, 1, 2, 3, 5, 9, 16, 17, 64, 511, 512])
}

/// A length of the work buffer, which is mostly enough.
fn any_work(random: &mut Random) -> usize {
    match random.below(25) {
        0 => random.pick(&[0, 1, 4096, WORK - 1]),
        1 => WORK + random.below(9000),
        _ => WORK,
    }
}

/// What document 02 says of who is served when, on numbers alone: how many services each
/// caller still takes, and what its verdict will be.
#[derive(Default)]
struct Plan {
    waiting: [Option<(u32, u32)>; CALLERS],
    turn: usize,
}

impl Plan {
    /// The services of a call, and who is finished in it.
    fn call(&mut self, quota: u32) -> (u32, Vec<(usize, u32)>) {
        let (mut services, mut finished) = (0, vec![]);
        while services < quota && self.waiting.iter().any(Option::is_some) {
            let caller = self.turn % CALLERS;
            self.turn += 1;
            let Some((left, verdict)) = &mut self.waiting[caller] else {
                continue;
            };
            services += 1;
            *left -= 1;
            if *left == 0 {
                finished.push((caller, *verdict));
                self.waiting[caller] = None;
            }
        }
        finished.sort();
        // The turn is that of the caller after the one that was served last.
        (services, finished)
    }
}

/// Bytes that stay: verdicts are those of check alone, and come when the plan says.
#[test]
fn verdicts_are_those_of_check_alone() {
    let mut random = Random::new(0x9a1);
    let mut pool = pool(&mut random, 70, 30);
    pool.extend(of_faulty_circuits(&mut random));
    let mut office = Office::new(0x9a2);
    let all: Vec<Places> = pool.iter().map(|known| office.put(&known.check)).collect();
    let mut plan = Plan::default();
    let [mut entries, mut calls, mut verdicts] = [(); 3].map(|()| Outcomes::default());
    for _ in 0..EVENTS {
        let work_len = any_work(&mut random);
        let Office { both, buffer, .. } = &mut office;
        if random.once_in(3) {
            let quota = match random.below(20) {
                0 => random.pick(&[0, 513, u32::MAX]),
                _ => any_quota(&mut random),
            };
            let answer = both.check_with(&mut random, quota, buffer, work_len);
            calls.add_answer(&answer);
            if let Ok(answer) = answer {
                let told = (answer.services, finished(&answer));
                assert_eq!(told, plan.call(quota), "quota {quota}");
                told.1.iter().for_each(|&(_, number)| verdicts.add(number));
            }
        } else {
            let caller = random.below(17) as u32;
            let which = random.below(pool.len());
            let answer = both.enter_with(&mut random, caller, all[which], buffer, work_len);
            entries.add_answer(&answer);
            let known = &pool[which];
            let passed = caller < 16 && plan.waiting[caller as usize].is_none();
            if passed && work_len >= WORK {
                let alone = if known.is_entered() {
                    Ok(())
                } else {
                    known.alone
                };
                assert_eq!(answer, alone);
            }
            if answer.is_ok() {
                let verdict = known.alone.err().unwrap_or(0);
                plan.waiting[caller as usize] = Some((known.services, verdict));
            }
        }
    }
    entries.expect(&[0, 1, 2, 3, 5, 6, 7, 11, 12, 19, 20, 21, 26, 27], 1);
    calls.expect(&[0, 6, 8, 28], 3);
    verdicts.expect(&[0, 10, 13], 10);
}

/// All 16 wait, again and again, with calls of one quota.
#[test]
fn sixteen_callers_at_a_time() {
    let mut random = Random::new(0x9b1);
    let pool = pool(&mut random, 40, 20);
    let mut office = Office::new(0x9b2);
    let all: Vec<Places> = pool.iter().map(|known| office.put(&known.check)).collect();
    let good: Vec<usize> = (0..40).filter(|&which| pool[which].is_entered()).collect();
    let mut plan = Plan::default();
    for quota in [1, 15, 16, 17, 64, 512] {
        for caller in 0..16 {
            let which = random.pick(&good);
            assert_eq!(office.enter(caller, all[which]), Ok(()));
            let verdict = pool[which].alone.err().unwrap_or(0);
            plan.waiting[caller as usize] = Some((pool[which].services, verdict));
        }
        while plan.waiting.iter().any(Option::is_some) {
            assert_eq!(office.check(quota), Ok(plan.call(quota)), "quota {quota}");
        }
        assert_eq!(office.check(quota), Err(28));
    }
}

/// One change of the buffer: a bit of an input, the length, or all as it was.
fn change(random: &mut Random, buffer: &mut Vec<u8>, original: &[u8], all: &[Places]) {
    let [circuit, y, message, proof] = random.pick(all);
    let last = |[start, len]: [u64; 2]| [start + len - 1, 1];
    let [start, len] = match random.below(12) {
        0 => return buffer.truncate(random.below(original.len())),
        1..4 => return *buffer = original.to_vec(),
        4 => circuit,
        5 => [circuit[0], 16],
        6 => message,
        7 => last(y),
        8 => [proof[0], 6],
        9 => last(proof),
        _ => proof,
    };
    let place = start as usize + random.below(len as usize);
    if let Some(byte) = buffer.get_mut(place) {
        *byte ^= 1 << random.below(8);
    }
}

/// Two proofs of the same length and of different numbers of instances lie in each other's
/// place in turn.
fn exchange(buffer: &mut [u8], original: &[u8], [one, other]: [Places; 2]) {
    let [one, other] =
        [one[3], other[3]].map(|[start, len]| start as usize..(start + len) as usize);
    if other.end > buffer.len() {
        return;
    }
    let is_at_home = buffer[one.clone()] == original[one.clone()];
    let from = if is_at_home { other } else { one.clone() };
    buffer[one].copy_from_slice(&original[from]);
}

/// Bytes that change between calls: both checkers agree, and what entry would refuse is a
/// verdict.
#[test]
fn bytes_that_change() {
    let mut random = Random::new(0x9c1);
    let [mut entries, mut verdicts] = [(); 2].map(|()| Outcomes::default());
    for history in 0..12 {
        let mut office = Office::new(0x9c2 + history);
        let pool = pool(&mut random, 10, 12);
        let good = pool.iter().filter(|known| known.is_entered());
        let mut all: Vec<Places> = good.map(|known| office.put(&known.check)).collect();
        let pair =
            of_eight_and_of_five(&mut random).map(|check| append(&mut office.buffer, &check));
        all.extend([pair[0]; 3]);
        let original = office.buffer.clone();
        for _ in 0..EVENTS / 16 {
            change(&mut random, &mut office.buffer, &original, &all);
            if random.once_in(3) {
                exchange(&mut office.buffer, &original, pair);
            }
            if random.once_in(2) {
                let [caller, which] = [16, all.len()].map(|bound| random.below(bound));
                entries.add_answer(&office.enter(caller as u32, all[which]));
            }
            let quota = random.pick(&[1, 1, 2, 3, 7, 16]);
            let told = office.check(quota);
            let ended = told.iter().flat_map(|(_, ended)| ended);
            ended.for_each(|&(_, number)| verdicts.add(number));
        }
    }
    entries.expect_some(&[0, 1, 2, 5, 6, 7, 11, 12, 27], 1);
    verdicts.expect_some(&[0, 1, 2, 5, 6, 7, 10, 11, 12, 13], 1);
}
