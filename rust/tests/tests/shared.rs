//! The checker that up to 16 callers share, by hand: who is served when, what the refusals
//! are and in which order, places and verdicts.

use reference::shared::Places;
use tests::calls::Setting;
use tests::circuits::{faults_of_five, FIVE};
use tests::office::{none, some, Office};
use tests::proofs::{places, Check, Prove, HEADER};
use tests::random::Random;
use tests::shared::{append, finished, proved, Both, WORK};
use wivulameno::proof::SharedChecker;

/// Callers 3, 0 and 15 with 2, 4 and 3 instances: 0, 3, 15, 0, 3, 15, 0, 15, 0 are served.
#[test]
fn cyclic_order_one_by_one() {
    let mut office = Office::new(1);
    for (caller, m) in [(3, 2), (0, 4), (15, 3)] {
        let places = office.proof(m);
        assert_eq!(office.enter(caller, places), Ok(()));
    }
    let ends = [(5, (3, 0)), (8, (15, 0)), (9, (0, 0))];
    for service in 1..=9 {
        let end = ends.iter().filter(|(place, _)| *place == service);
        let end: Vec<_> = end.map(|(_, end)| *end).collect();
        assert_eq!(office.check(1), some(1, &end), "service {service}");
    }
    assert_eq!(office.check(1), Err(28));
}

/// The same in calls of several services, which end where nobody waits.
#[test]
fn quotas() {
    let mut office = Office::new(2);
    let all = [(3, 2), (0, 4), (15, 3)].map(|(caller, m)| (caller, office.proof(m)));
    for (caller, places) in all {
        assert_eq!(office.enter(caller, places), Ok(()));
    }
    assert_eq!(office.check(4), none(4));
    assert_eq!(office.check(4), some(4, &[(3, 0), (15, 0)]));
    assert_eq!(office.check(512), some(1, &[(0, 0)]));
    for quota in [9, 10, 512] {
        for (caller, places) in all {
            assert_eq!(office.enter(caller, places), Ok(()));
        }
        let finished = [(0, 0), (3, 0), (15, 0)];
        assert_eq!(office.check(quota), some(9, &finished), "{quota}");
    }
    assert_eq!(office.check(512), Err(28));
}

/// 512 instances in one call, and in calls of 511 and 1.
#[test]
fn the_longest_proof_and_the_largest_quota() {
    let mut office = Office::new(3);
    let check = proved(&mut office.random, [3, 2, 4], [512, 2, 2]);
    let places = office.put(&check);
    assert_eq!(office.enter(9, places), Ok(()));
    assert_eq!(office.check(512), some(512, &[(9, 0)]));
    assert_eq!(office.enter(9, places), Ok(()));
    assert_eq!(office.check(511), none(511));
    assert_eq!(office.check(512), some(1, &[(9, 0)]));
}

/// The caller that was served last is remembered while nobody waits, and through entries.
#[test]
fn who_was_served_last() {
    let mut office = Office::new(4);
    let two = office.proof(2);
    for last in [0, 1, 7, 8, 14, 15] {
        assert_eq!(office.enter(last, two), Ok(()));
        assert_eq!(office.check(2), some(2, &[(last as usize, 0)]));
        assert_eq!(office.check(2), Err(28));
        for caller in [last, (last + 1) % 16, (last + 9) % 16] {
            assert_eq!(office.enter(caller, two), Ok(()));
        }
        let order = [(last + 1) % 16, (last + 9) % 16, last].map(|caller| caller as usize);
        assert_eq!(office.check(3), none(3));
        for caller in order {
            assert_eq!(office.check(1), some(1, &[(caller, 0)]), "after {last}");
        }
    }
}

/// Entries between calls do not move the turn: who enters behind waits for the next round,
/// who enters ahead is served in this one.
#[test]
fn entries_while_others_wait() {
    let mut office = Office::new(5);
    let [two, six] = [office.proof(2), office.proof(6)];
    assert_eq!(office.enter(5, six), Ok(()));
    assert_eq!(office.check(1), none(1)); // 5
    assert_eq!(office.enter(4, two), Ok(()));
    assert_eq!(office.enter(6, two), Ok(()));
    assert_eq!(office.check(1), none(1)); // 6
    assert_eq!(office.enter(7, two), Ok(()));
    assert_eq!(office.check(3), none(3)); // 7, 4, 5
    assert_eq!(office.check(1), some(1, &[(6, 0)]));
    assert_eq!(office.enter(6, two), Ok(()));
    assert_eq!(office.check(2), some(2, &[(4, 0), (7, 0)]));
    assert_eq!(office.check(2), none(2)); // 5, 6
    assert_eq!(office.check(2), some(2, &[(6, 0)])); // 5, 6
    assert_eq!(office.check(9), some(2, &[(5, 0)]));
}

/// A caller that enters again begins from its first instance, whatever became of the
/// proof before.
#[test]
fn entering_again() {
    let mut office = Office::new(6);
    let good = office.proof(5);
    let mut check = office.held(good);
    *check.proof.last_mut().expect("a byte") ^= 1;
    let bad = office.put(&check);
    let verdict = check.by_reference().expect_err("a changed bit");
    assert!([10, 13].contains(&verdict));
    assert_eq!(office.enter(2, bad), Ok(()));
    let (first, ended) = office.check(512).expect("no refusal");
    assert_eq!(ended, [(2, verdict)]);
    assert_eq!(office.enter(2, good), Ok(()));
    assert_eq!(office.check(512), some(5, &[(2, 0)]));
    assert_eq!(office.enter(2, bad), Ok(()));
    assert_eq!(office.check(512), some(first, &[(2, verdict)]));
    // Bytes that entry refuses end the proof; the next one is not touched by that.
    assert_eq!(office.enter(2, good), Ok(()));
    assert_eq!(office.check(3), none(3));
    office.at(good[3])[5] = 1;
    assert_eq!(office.check(3), some(1, &[(2, 11)]));
    office.at(good[3])[5] = 0;
    assert_eq!(office.enter(2, good), Ok(()));
    assert_eq!(office.check(4), none(4));
    assert_eq!(office.check(4), some(1, &[(2, 0)]));
}

const OUTSIDE: Places = [[u64::MAX, 2], [0, 0], [0, 0], [0, 0]];

/// 26, 27, 6 for a place, 6 for the work buffer, then what check refuses.
#[test]
fn refusals_of_entry_in_order() {
    let mut office = Office::new(7);
    let good = office.proof(3);
    let illegal: Places = [[0, 3], good[1], good[2], good[3]];
    assert_eq!(office.enter(5, good), Ok(()));
    let mut ask = |caller, places, work_len| {
        let Office {
            random,
            both,
            buffer,
        } = &mut office;
        both.enter_with(random, caller, places, buffer, work_len)
    };
    for caller in [16, 17, 5 + 16, 256 + 5, 1 << 16, 1 << 31, u32::MAX] {
        for places in [good, OUTSIDE, illegal] {
            for work_len in [0, WORK] {
                assert_eq!(ask(caller, places, work_len), Err(26));
            }
        }
    }
    for places in [good, OUTSIDE, illegal] {
        for work_len in [0, WORK - 1, WORK] {
            assert_eq!(ask(5, places, work_len), Err(27));
        }
    }
    for caller in [0, 4, 6, 15] {
        for work_len in [0, WORK - 1, WORK, WORK + 9] {
            assert_eq!(ask(caller, OUTSIDE, work_len), Err(6));
        }
        for work_len in [0, 1, WORK - 64, WORK - 1] {
            assert_eq!(ask(caller, illegal, work_len), Err(6));
            assert_eq!(ask(caller, good, work_len), Err(6));
        }
        assert_eq!(ask(caller, illegal, WORK), Err(1));
        assert_eq!(ask(caller, illegal, WORK + 5000), Err(1));
        assert_eq!(ask(caller, good, WORK + 5000), Ok(()));
    }
}

/// 8, then 28, then 6.
#[test]
fn refusals_of_a_call_in_order() {
    let mut office = Office::new(8);
    let good = office.proof(3);
    for waits in [false, true] {
        if waits {
            assert_eq!(office.enter(5, good), Ok(()));
        }
        let mut ask = |quota, work_len| {
            let Office {
                random,
                both,
                buffer,
            } = &mut office;
            let answer = both.check_with(random, quota, buffer, work_len);
            answer.map(|answer| answer.services)
        };
        for quota in [0, 513, 514, 1024, 65_537, 1 << 31, u32::MAX] {
            for work_len in [0, WORK] {
                assert_eq!(ask(quota, work_len), Err(8), "{quota}");
            }
        }
        let short = if waits { 6 } else { 28 };
        for quota in [1, 512] {
            for work_len in [0, 4096, WORK - 1] {
                assert_eq!(ask(quota, work_len), Err(short));
            }
        }
        match waits {
            true => assert_eq!(ask(2, WORK + 4099), Ok(2)),
            false => assert_eq!(ask(2, WORK), Err(28)),
        }
    }
}

/// A place must lie wholly inside the buffer, an empty one too, and nothing wraps.
#[test]
fn places_in_the_buffer() {
    let mut office = Office::new(9);
    let good = office.proof(3);
    let len = office.buffer.len() as u64;
    let outside = [
        [len, 1],
        [len + 1, 0],
        [len - 1, 2],
        [0, len + 1],
        [u64::MAX, 0],
        [u64::MAX, 1],
        [u64::MAX, u64::MAX],
        [1, u64::MAX],
        [len, u64::MAX - len + 1],
        [1 << 63, 1 << 63],
        [1 << 32, 0],
        [0, 1 << 32],
        [(1 << 32) + 1, 3],
    ];
    for which in 0..4 {
        for place in outside {
            let mut places = good;
            places[which] = place;
            assert_eq!(office.enter(1, places), Err(6), "{which}, {place:?}");
        }
    }
    // At the buffer's end an empty place is inside: there the message is none, and the
    // other inputs are too short.
    for (which, number) in [(0, 1), (1, 6), (3, 11)] {
        let mut places = good;
        places[which] = [len, 0];
        assert_eq!(office.enter(1, places), Err(number), "{which}");
    }
    // A proof for another message is refused as check alone refuses it.
    let mut check = office.held(good);
    check.message = vec![];
    let alone = check.by_reference().expect_err("another message");
    let mut places = good;
    places[2] = [len, 0];
    match office.enter(1, places) {
        Ok(()) => assert_eq!(office.check(3).expect("no refusal").1, [(1, alone)]),
        answer => assert_eq!(answer, Err(alone)),
    }
}

/// A buffer that ends with the proof, and places that share bytes.
#[test]
fn places_that_touch_and_overlap() {
    let mut random = Random::new(10);
    // y is one byte, and a message that begins with it.
    let setting = Setting::of_sizes(&mut random, [4, 3, 5], 2);
    let mut call = Prove::of(&mut random, &setting, [4, 2], 0);
    call.message = [&call.y[..], b" and more"].concat();
    let check = call.check(&call.by_reference().expect("proved"));
    let mut both = Both::new(&mut random);
    let mut buffer = vec![];
    let mut places = append(&mut buffer, &check);
    places[1] = [places[2][0], 1];
    assert_eq!(places[3][0] + places[3][1], buffer.len() as u64);
    for caller in 0..16 {
        assert_eq!(both.enter(&mut random, caller, places, &buffer), Ok(()));
    }
    let answer = both.check(&mut random, 512, &buffer).expect("no refusal");
    let all: Vec<_> = (0..16).map(|caller| (caller, 0)).collect();
    assert_eq!((answer.services, finished(&answer)), (64, all));
}

/// Each number of check but 10 and 13 is refused on entry; these two are not.
#[test]
fn every_number_on_entry() {
    let mut random = Random::new(11);
    let setting = Setting::of_circuit(&mut random, &FIVE, 4);
    let call = Prove::of(&mut random, &setting, [6, 3], 5);
    let good = call.check(&call.by_reference().expect("proved"));
    let with = |change: &dyn Fn(&mut Check)| {
        let mut check = good.clone();
        change(&mut check);
        check
    };
    let mut cases: Vec<(u32, Check)> = vec![
        (6, with(&|check| check.y.push(0))),
        (6, with(&|check| check.y.clear())),
        (6, with(&|check| check.message = vec![0; 4097])),
        (7, with(&|check| check.y[0] |= 0x08)),
        (11, with(&|check| check.proof.truncate(HEADER - 1))),
        (11, with(&|check| check.proof[5] = 1)),
        (11, with(&|check| check.proof[4] = 3)),
        (11, with(&|check| check.proof[2] = check.proof[0])),
        (12, with(&|check| check.proof.push(0))),
        (12, with(&|check| check.proof.truncate(200))),
        (12, with(&|check| check.proof.truncate(HEADER))),
    ];
    for (number, circuit) in faults_of_five() {
        cases.push((number, with(&|check| check.circuit = circuit.clone())));
    }
    // A row has 3 bits of AND gates and 3 of outputs, so 2 out of use.
    let all_places = places(setting.sizes, &good);
    let chosen = all_places.iter().filter(|(hidden, ..)| hidden.is_some());
    for (_, start, len) in chosen {
        cases.push((7, with(&|check| check.proof[start + len - 1] |= 0x80)));
    }
    let mut office = Office::new(12);
    for (number, check) in cases {
        assert_eq!(check.by_reference(), Err(number));
        let places = office.put(&check);
        assert_eq!(office.enter(3, places), Err(number));
        assert_eq!(office.check(1), Err(28));
    }
    for place in [all_places[0].1, HEADER] {
        let check = with(&|check| check.proof[place] ^= 1);
        let number = check.by_reference().expect_err("a changed bit");
        assert!([10, 13].contains(&number));
        let places = office.put(&check);
        assert_eq!(office.enter(3, places), Ok(()));
        let (_, ended) = office.check(6).expect("no refusal");
        assert_eq!(ended, [(3, number)]);
    }
}

/// A wrong output finishes a proof at its instance; a wrong digest at the last one.
#[test]
fn ten_is_early_and_thirteen_late() {
    let mut office = Office::new(13);
    let mut random = Random::new(14);
    let setting = Setting::of_circuit(&mut random, &FIVE, 4);
    let call = Prove::of(&mut random, &setting, [9, 4], 5);
    let good = call.check(&call.by_reference().expect("proved"));
    for (j, (hidden, start, len)) in places(setting.sizes, &good).into_iter().enumerate() {
        let mut check = good.clone();
        let expected = match hidden {
            // The hidden party's share of output 0 stands behind 3 bits of AND gates.
            Some(_) => {
                check.proof[start + len - 1] ^= 0x08;
                (j as u32 + 1, 10)
            }
            None => {
                check.proof[start] ^= 1;
                (9, 13)
            }
        };
        let places = office.put(&check);
        assert_eq!(office.enter(11, places), Ok(()));
        for service in 1..=expected.0 {
            let end = [(11, expected.1)];
            let end = if service == expected.0 { &end[..] } else { &[] };
            assert_eq!(office.check(1), some(1, end), "instance {j}");
        }
        assert_eq!(office.check(1), Err(28));
    }
}

/// 16 depots, of which one has the longest proof: every other is finished as soon as if
/// that one were as short, and none waits for more than 16 services.
#[test]
fn one_of_sixteen_has_the_longest_proof() {
    for long in [0, 6, 15] {
        let mut office = Office::new(26);
        let instances: Vec<u32> = (0..16)
            .map(|k| if k == long { 512 } else { 2 + k % 4 })
            .collect();
        for caller in 0..16 {
            let check = match instances[caller as usize] {
                512 => proved(&mut office.random, [3, 2, 4], [512, 3, 2]),
                m => proved(&mut office.random, [3, 2, 4], [m, 1, 2]),
            };
            let places = office.put(&check);
            assert_eq!(office.enter(caller, places), Ok(()));
        }
        // In round r those are served that have at least r instances, in their order.
        let mut expected = vec![];
        for round in 1..=6 {
            for (caller, &m) in instances.iter().enumerate() {
                if m >= round {
                    let end = (m == round).then_some((caller, 0));
                    expected.push(Vec::from_iter(end));
                }
            }
        }
        for (service, end) in expected.iter().enumerate() {
            assert_eq!(
                office.check(1),
                some(1, end),
                "service {service}, long {long}"
            );
        }
        assert_eq!(office.check(512), some(506, &[(long as usize, 0)]));
    }
}

/// The checker is what its state is: two histories from one state, and a state that was
/// kept as bytes.
#[test]
fn a_state_is_a_value() {
    let mut office = Office::new(27);
    let [one, other] = [office.proof(4), office.proof(6)];
    assert_eq!(office.enter(1, one), Ok(()));
    assert_eq!(office.enter(2, other), Ok(()));
    assert_eq!(office.check(3), none(3));
    let (ours, second, waiting) = office.both.state();
    for _ in 0..3 {
        let kept = SharedChecker::from_state(*ours.state());
        assert_eq!(kept, ours);
        office.both.set_state((kept, second.clone(), waiting));
        assert_eq!(office.check(7), some(7, &[(1, 0), (2, 0)]));
        assert_eq!(office.check(7), Err(28));
    }
    assert_eq!(SharedChecker::new(), SharedChecker::default());
}
