//! Where a chain goes wrong: the number and the slot of every chain of few slots,
//! and of random ones of many. Every operation but read gives the number alone.

use std::iter::successors;
use tests::calls::{compare, Setting};
use tests::circuits::row_of_gates;
use tests::outcomes::Outcomes;
use tests::proofs::{compare_check, compare_prove, Prove};
use tests::random::Random;

/// A number and a slot.
type Fault = (u32, usize);

/// The head, and then the link of each slot: the link of slot k is at place k.
type Chain = Vec<u32>;

/// INV gates of input 0 with this chain.
fn bytes(chain: &Chain) -> Vec<u8> {
    let mut file = row_of_gates(chain.len() - 1);
    file.head = chain[0];
    for (gate, &link) in file.gates.iter_mut().zip(&chain[1..]) {
        gate.next = link;
    }
    file.bytes()
}

/// What both implementations find.
fn found(chain: &Chain) -> Option<Fault> {
    let file = bytes(chain);
    let ours = wivulameno::circuit::read(&file).map(|_| ());
    let second = reference::circuit::read(&file).map(|_| ());
    assert_eq!(ours.map_err(|refusal| refusal.number()), second);
    let slot = wivulameno::circuit::fault_slot(&file) as usize;
    assert_eq!(slot, reference::circuit::fault_slot(&file));
    assert!(second.is_err() || slot == 0);
    second.err().map(|number| (number, slot))
}

/// The head and the slots as the links lead to them, as far as there are any, and
/// no more than G + 1 of them.
fn holders(chain: &Chain) -> Vec<usize> {
    let gates = chain.len() - 1;
    let next = |&holder: &usize| {
        let link = chain[holder] as usize;
        (1..=gates).contains(&link).then_some(link)
    };
    successors(Some(0), next).take(gates + 1).collect()
}

/// The first of these links that is wrong, with the number of what is wrong.
fn first_fault(chain: &Chain) -> Option<Fault> {
    let gates = chain.len() - 1;
    let faults = holders(chain).into_iter().enumerate();
    let mut faults = faults.filter_map(|(visits, holder)| {
        let link = chain[holder] as usize;
        let beyond = (link > gates).then_some(19);
        let short = (link == 0 && visits < gates).then_some(20);
        let long = (link != 0 && visits == gates).then_some(21);
        let number = beyond.or(short).or(long)?;
        Some((number, holder))
    });
    faults.next()
}

/// Does the chain visit each slot exactly once, and end?
fn visits_each_once(chain: &Chain) -> bool {
    let holders = holders(chain);
    let ends = chain[holders[holders.len() - 1]] == 0;
    let mut slots = holders[1..].to_vec();
    slots.sort();
    ends && slots == (1..chain.len()).collect::<Vec<_>>()
}

/// Every head and every link from 0 to G + 1.
fn all_chains(gates: usize) -> impl Iterator<Item = Chain> {
    let choices = gates + 2;
    (0..choices.pow(gates as u32 + 1)).map(move |number| {
        let places = (0..=gates as u32).map(|place| number / choices.pow(place) % choices);
        places.map(|link| link as u32).collect()
    })
}

#[test]
fn every_chain_of_few_slots() {
    for (gates, good) in [(0, 1), (1, 1), (2, 2), (3, 6), (4, 24)] {
        let mut accepted = 0;
        for chain in all_chains(gates) {
            let found = found(&chain);
            assert_eq!(found, first_fault(&chain), "{chain:?}");
            assert_eq!(found.is_none(), visits_each_once(&chain), "{chain:?}");
            accepted += usize::from(found.is_none());
        }
        assert_eq!(accepted, good, "{gates} slots have as many orders");
    }
}

#[test]
fn chains_by_hand() {
    let known: [(&[u32], Option<Fault>); 21] = [
        // No gates: every other head is beyond.
        (&[0], None),
        (&[1], Some((19, 0))),
        (&[65_536], Some((19, 0))),
        (&[u32::MAX], Some((19, 0))),
        // One gate.
        (&[0, 0], Some((20, 0))),
        (&[0, 1], Some((20, 0))),
        (&[0, 2], Some((20, 0))),
        (&[1, 0], None),
        (&[1, 1], Some((21, 1))),
        (&[1, 2], Some((19, 1))),
        (&[2, 0], Some((19, 0))),
        // The head to slot 3, which leads to slot 1, and that to slot 2.
        (&[3, 2, 0, 1], None),
        (&[3, 0, 0, 1], Some((20, 1))),
        (&[3, 2, 3, 1], Some((21, 2))),
        (&[3, 2, 4, 1], Some((19, 2))),
        (&[3, 2, 0, 0], Some((20, 3))),
        // Slots 3 and 1 in a ring: the third visit is that of slot 3.
        (&[3, 3, 0, 1], Some((21, 3))),
        // Slot 3 alone in a ring.
        (&[3, 2, 0, 3], Some((21, 3))),
        // A link beyond that the chain does not come to.
        (&[1, 2, 0, 9], Some((20, 2))),
        (&[1, 2, 1, 9], Some((21, 1))),
        // Two faults: the first on the way.
        (&[2, 0, 7, 8], Some((19, 2))),
    ];
    for (chain, expected) in known {
        assert_eq!(found(&chain.to_vec()), expected, "{chain:?}");
    }
}

/// A chain through all slots in any order, of which some links are changed.
fn any_chain(random: &mut Random) -> Chain {
    let rare = if random.once_in(40) { 100_000 } else { 5 };
    let most = random.pick(&[5, 30, 300, 4096, rare]);
    let gates = random.from_to(1, most);
    let mut file = row_of_gates(gates);
    file.link(&random.order(gates));
    let links = file.gates.iter().map(|gate| gate.next);
    let mut chain: Chain = [file.head].into_iter().chain(links).collect();
    for _ in 0..random.below(4) {
        let place = random.below(gates + 1);
        let within = random.from_to(1, gates);
        let link = random.pick(&[
            0,
            within,
            within,
            gates + 1,
            (1 << 31) + within,
            0xffff_ffff,
        ]);
        chain[place] = link as u32;
    }
    chain
}

#[test]
fn random_chains() {
    let mut random = Random::new(31);
    let mut outcomes = Outcomes::default();
    let mut at_the_head = 0;
    for _ in 0..6_000 {
        let chain = any_chain(&mut random);
        let found = found(&chain);
        assert_eq!(found, first_fault(&chain));
        assert_eq!(found.is_none(), visits_each_once(&chain));
        outcomes.add(found.map_or(0, |(number, _)| number));
        at_the_head += usize::from(matches!(found, Some((_, 0))));
    }
    outcomes.expect(&[0, 19, 20, 21], 500);
    assert!(at_the_head > 100, "{at_the_head}");
}

/// Links that have no order: mostly a ring, met after a while.
#[test]
fn links_at_random() {
    let mut random = Random::new(32);
    let mut outcomes = Outcomes::default();
    for _ in 0..4_000 {
        let gates = random.from_to(1, 40);
        let chain: Chain = (0..=gates)
            .map(|_| random.below(gates + 2) as u32)
            .collect();
        let found = found(&chain);
        assert_eq!(found, first_fault(&chain), "{chain:?}");
        outcomes.add(found.map_or(0, |(number, _)| number));
    }
    outcomes.expect(&[0, 19, 20, 21], 10);
}

/// Every chain of two slots, lent to every operation.
#[test]
fn other_operations_give_the_number_alone() {
    let mut random = Random::new(33);
    let setting = Setting::of(&mut random, row_of_gates(2), vec![1, 2], 2);
    let shown = setting.show(0, 2).by_reference().expect("shown");
    let calls = [
        setting.prepare(),
        setting.run(&[]),
        setting.show(0, 2),
        setting.replay(0, &shown, &setting.y()),
    ];
    let prove = Prove::of(&mut random, &setting, [3, 1], 5);
    let check = prove.check(&prove.by_reference().expect("proved"));
    let mut outcomes = Outcomes::default();
    for chain in all_chains(2) {
        let Some((number, _)) = first_fault(&chain) else {
            continue;
        };
        let circuit = bytes(&chain);
        let mut y = [0xa5];
        let answer = wivulameno::circuit::evaluate(&circuit, &setting.witness, &mut y);
        let refusal = answer.map_err(|refusal| refusal.number());
        assert_eq!((refusal, y), (Err(number), [0xa5]), "{chain:?}");
        for mut call in calls.clone() {
            call.circuit.clone_from(&circuit);
            assert_eq!(compare(&mut random, &call), Err(number), "{chain:?}");
        }
        let mut prove = prove.clone();
        prove.circuit.clone_from(&circuit);
        assert_eq!(compare_prove(&mut random, &prove), Err(number), "{chain:?}");
        let mut check = check.clone();
        check.circuit.clone_from(&circuit);
        assert_eq!(compare_check(&mut random, &check), Err(number), "{chain:?}");
        outcomes.add(number);
    }
    outcomes.expect(&[19, 20, 21], 3);
}
