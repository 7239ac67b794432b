//! The shared checker where the lent bytes change between two calls.

use tests::calls::Setting;
use tests::circuits::FIVE;
use tests::office::{none, some, Office};
use tests::proofs::{places, Check, Prove};
use tests::random::Random;
use tests::shared::of_eight_and_of_five;

/// What entry would refuse finishes a proof with that number, counted as an instance, and
/// only when its turn comes; the others go on.
#[test]
fn bytes_that_entry_would_refuse() {
    let mut random = Random::new(15);
    let setting = Setting::of_circuit(&mut random, &FIVE, 4);
    let changes: [(u32, usize, usize, u8); 10] = [
        (1, 0, 8, 6),   // G 6
        (2, 0, 0, 0),   // I 0
        (3, 0, 28, 4),  // the kind of slot 1
        (5, 0, 32, 9),  // a of slot 1
        (19, 0, 12, 6), // the head
        (20, 0, 12, 0),
        (21, 0, 104, 3), // the link of slot 5
        (7, 1, 0, 0xff),
        (11, 3, 4, 3),
        (12, 3, 0, 7),
    ];
    for (number, which, place, byte) in changes {
        let mut office = Office::new(16);
        let call = Prove::of(&mut random, &setting, [6, 1], 5);
        let changed = office.put(&call.check(&call.by_reference().expect("proved")));
        let [before, after] = [office.proof(6), office.proof(7)];
        for (caller, places) in [(2, changed), (1, before), (3, after)] {
            assert_eq!(office.enter(caller, places), Ok(()));
        }
        assert_eq!(office.check(4), none(4)); // 1, 2, 3, 1
        let held = office.at(changed[which])[place];
        office.at(changed[which])[place] = byte;
        assert_eq!(office.check(1), some(1, &[(2, number)]), "{number}");
        office.at(changed[which])[place] = held;
        assert_eq!(office.check(512), some(10, &[(1, 0), (3, 0)]), "{number}");
    }
}

/// A change that is taken back before the turn comes does not count.
#[test]
fn bytes_that_change_and_change_back() {
    let mut office = Office::new(17);
    let [one, other] = [office.proof(3), office.proof(5)];
    assert_eq!(office.enter(0, one), Ok(()));
    assert_eq!(office.enter(1, other), Ok(()));
    office.at(one[3])[5] = 1;
    office.at(one[3])[5] = 0;
    assert_eq!(office.check(1), none(1)); // 0
    office.at(one[0])[0] ^= 1;
    assert_eq!(office.check(1), none(1)); // 1
    office.at(one[0])[0] ^= 1;
    assert_eq!(office.check(512), some(6, &[(0, 0), (1, 0)]));
}

/// A shorter buffer than at entry leaves some places outside: 6 for those, at their turn.
#[test]
fn places_that_are_now_outside() {
    let mut office = Office::new(18);
    let [first, second, third] = [office.proof(3), office.proof(4), office.proof(4)];
    for (caller, places) in [(4, third), (5, first), (6, second)] {
        assert_eq!(office.enter(caller, places), Ok(()));
    }
    assert_eq!(office.check(3), none(3)); // 4, 5, 6
    let whole = office.buffer.clone();
    office.buffer.truncate(whole.len() - 1);
    assert_eq!(office.check(2), some(2, &[(4, 6)])); // 4, 5
    office.buffer.truncate(second[0][0] as usize);
    assert_eq!(office.check(1), some(1, &[(6, 6)]));
    assert_eq!(office.check(9), some(1, &[(5, 0)]));
    // All that a caller has is its places: a buffer that grows again has them.
    office.buffer = whole;
    for (caller, places) in [(4, third), (5, first)] {
        assert_eq!(office.enter(caller, places), Ok(()));
    }
    let mut longer = office.buffer.clone();
    longer.extend([0; 100]);
    office.buffer = longer;
    assert_eq!(office.check(512), some(7, &[(4, 0), (5, 0)]));
    office.buffer.clear();
    assert_eq!(office.enter(4, third), Err(6));
    assert_eq!(office.check(1), Err(28));
}

/// M changes between two calls from 8 to 5 after so many instances, or the other way.
/// Where M is no longer above the next instance the proof is finished with 13, counted;
/// where it is the next and one, that instance is the last, and the digests decide; where
/// it has grown, checking goes on.
#[test]
fn another_number_of_instances() {
    let mut random = Random::new(19);
    let [eight, five] = of_eight_and_of_five(&mut random);
    for done in 1..8 {
        let mut office = Office::new(20);
        let places = office.put(&eight);
        assert_eq!(office.enter(7, places), Ok(()));
        assert_eq!(office.check(done), none(done));
        office.at(places[3]).copy_from_slice(&five.proof);
        let expected = match done {
            ..5 => some(5 - done, &[(7, 0)]),
            _ => some(1, &[(7, 13)]),
        };
        assert_eq!(office.check(512), expected, "{done} of 8, then M is 5");
        assert_eq!(office.check(1), Err(28));
    }
    for done in 1..5 {
        let mut office = Office::new(21);
        let places = office.put(&five);
        assert_eq!(office.enter(7, places), Ok(()));
        assert_eq!(office.check(done), none(done));
        office.at(places[3]).copy_from_slice(&eight.proof);
        let expected = some(8 - done, &[(7, 0)]);
        assert_eq!(office.check(512), expected, "{done} of 5, then M is 8");
    }
}

/// The same with a last digest that is not that of the proof: 13, at the last instance of
/// the proof as it is then.
#[test]
fn another_number_of_instances_and_other_digests() {
    let mut random = Random::new(22);
    let [mut eight, mut five] = of_eight_and_of_five(&mut random);
    let sizes = reference::circuit::read(&eight.circuit).expect("a circuit");
    let first_not_chosen = |check: &Check, least: usize| {
        let all = places(sizes, check);
        let mut after = all.into_iter().enumerate().skip(least);
        let found = after.find(|(_, (hidden, ..))| hidden.is_none());
        found.map(|(_, (_, start, _))| start)
    };
    let [in_eight, in_five] = [first_not_chosen(&eight, 5), first_not_chosen(&five, 2)];
    eight.proof[in_eight.expect("two of three")] ^= 1;
    five.proof[in_five.expect("one of three")] ^= 1;
    for (done, from, to, services) in [(2, &eight, &five, 3), (2, &five, &eight, 6)] {
        let mut office = Office::new(23);
        let places = office.put(from);
        assert_eq!(office.enter(7, places), Ok(()));
        assert_eq!(office.check(done), none(done));
        office.at(places[3]).copy_from_slice(&to.proof);
        assert_eq!(office.check(512), some(services, &[(7, 13)]));
    }
}

/// The bytes of one proof may take the place of another's: what counts is what the places
/// hold when the turn comes.
#[test]
fn another_proof_in_its_place() {
    let mut random = Random::new(24);
    let setting = Setting::of_sizes(&mut random, [6, 4, 0], 2);
    let call = Prove::of(&mut random, &setting, [4, 2], 5);
    let one = call.check(&call.by_reference().expect("proved"));
    let other = loop {
        let call = Prove {
            root: random.bytes(16),
            ..call.clone()
        };
        let other = call.check(&call.by_reference().expect("proved"));
        if other.proof.len() == one.proof.len() {
            break other;
        }
    };
    for done in 0..4 {
        let mut office = Office::new(25);
        let places = office.put(&one);
        assert_eq!(office.enter(0, places), Ok(()));
        if done > 0 {
            assert_eq!(office.check(done), none(done));
        }
        office.at(places[3]).copy_from_slice(&other.proof);
        let number = if done == 0 { 0 } else { 13 };
        assert_eq!(office.check(512), some(4 - done, &[(0, number)]), "{done}");
    }
}
