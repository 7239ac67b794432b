//! One of several outputs: a built circuit gives 1 exactly if the old output is in the list,
//! the order of refusals, and its proofs and showings.

use reference::bits::clear_rest;
use reference::circuit::{evaluate, read};
use reference::one_of::OneOf;
use tests::calls::{any_bits, Call, Setting, COUNTS};
use tests::circuits::{
    any_sizes, any_slots, damaged, faults_of_five, legal, row_of_gates, with, FIVE, K,
};
use tests::one_of::{build, expect};
use tests::outcomes::Outcomes;
use tests::partners::{check_partners, partners};
use tests::proofs::{compare_check, compare_prove, Prove};
use tests::random::Random;
use wivulameno::circuit::{one_of, one_of_to_vec};
use wivulameno::Refusal;

/// The inputs are the outputs; no gates.
fn wires(count: u32) -> Vec<u8> {
    let mut file = row_of_gates(0);
    file.counts = [count, count, 0];
    file.outputs = (0..count).collect();
    file.bytes()
}

/// All lists of so many of these bytes.
fn lists(count: usize, bytes: u8) -> Vec<Vec<u8>> {
    let mut lists = vec![vec![]];
    for _ in 0..count {
        let longer = lists
            .iter()
            .flat_map(|list| (0..bytes).map(|byte| [&list[..], &[byte]].concat()));
        lists = longer.collect();
    }
    lists
}

/// Up to three outputs, every list of up to four of them, every witness.
#[test]
fn every_short_list() {
    let mut random = Random::new(1);
    for (outputs, most) in [(1, 4), (2, 4), (3, 3)] {
        let circuit = wires(outputs);
        for list in (1..=most).flat_map(|count| lists(count, 1 << outputs)) {
            let built = build(&mut random, &circuit, &list).expect("built");
            let asked = OneOf::of(&circuit, &list).expect("a list");
            for witness in 0..1 << outputs {
                assert_eq!(expect(&built, &asked, &[witness]), list.contains(&witness));
            }
        }
    }
}

/// The output of a circuit for a witness.
fn output(circuit: &[u8], witness: &[u8]) -> Vec<u8> {
    let sizes = read(circuit).expect("legal");
    let mut y = vec![0; sizes.y_len()];
    assert_eq!(evaluate(circuit, witness, &mut y), Ok(()));
    y
}

/// So many outputs that occur, outputs next to them, or any; often one is there twice.
fn any_list(random: &mut Random, circuit: &[u8], count: usize) -> Vec<u8> {
    let sizes = read(circuit).expect("legal");
    let mut list: Vec<Vec<u8>> = vec![];
    while list.len() < count {
        let witness = any_bits(random, sizes.inputs);
        let mut entry = output(circuit, &witness);
        match random.below(4) {
            0 => entry = any_bits(random, sizes.outputs),
            1 => {
                let bit = random.below(sizes.outputs);
                entry[bit / 8] ^= 1 << (bit % 8);
            }
            _ => {}
        }
        list.push(entry.clone());
        if random.once_in(5) {
            list.push(entry);
        }
    }
    list.truncate(count);
    list.concat()
}

/// 1 to 16 entries, 1 to 256 outputs, and circuits of any size.
#[test]
fn entries_and_outputs() {
    let mut random = Random::new(2);
    let [mut matched, mut others] = [0; 2];
    for outputs in [1, 2, 3, 7, 8, 9, 15, 16, 17, 31, 33, 64, 100, 255, 256] {
        for count in 1..=16 {
            let sizes = [random.from_to(1, 20), outputs, random.below(40)];
            let slots = any_slots(&mut random, sizes[2]);
            let circuit = legal(&mut random, sizes, &slots).bytes();
            let list = any_list(&mut random, &circuit, count);
            let built = build(&mut random, &circuit, &list).expect("built");
            assert_eq!(one_of_to_vec(&circuit, &list).as_ref(), Ok(&built));
            let asked = OneOf::of(&circuit, &list).expect("a list");
            for _ in 0..12 {
                let witness = any_bits(&mut random, sizes[0]);
                match expect(&built, &asked, &witness) {
                    true => matched += 1,
                    false => others += 1,
                }
            }
        }
    }
    assert!(matched > 500 && others > 500, "{matched} and {others}");
}

/// An entry that differs from the output in one bit does not match, whichever bit.
#[test]
fn every_bit_counts() {
    let mut random = Random::new(3);
    for outputs in [1, 8, 9, 65, 256] {
        let circuit = wires(outputs as u32);
        let witness = any_bits(&mut random, outputs);
        let other = any_bits(&mut random, outputs);
        let list = [&other[..], &witness].concat();
        let built = build(&mut random, &circuit, &list).expect("built");
        let asked = OneOf::of(&circuit, &list).expect("a list");
        assert!(expect(&built, &asked, &witness) && expect(&built, &asked, &other));
        for bit in 0..outputs {
            let mut near = witness.clone();
            near[bit / 8] ^= 1 << (bit % 8);
            assert_eq!(expect(&built, &asked, &near), near == other);
        }
    }
}

/// One entry 16 times, all entries that there are, and none that occurs.
#[test]
fn lists_by_hand() {
    let mut random = Random::new(4);
    let check = |random: &mut Random, circuit: &[u8], list: &[u8], expected: &[u8]| {
        let built = build(random, circuit, list).expect("built");
        let asked = OneOf::of(circuit, list).expect("a list");
        for (witness, expected) in (0..).zip(expected) {
            assert_eq!(expect(&built, &asked, &[witness]), *expected == 1);
        }
    };
    // K gives 1 for the last witness alone.
    check(&mut random, &K, &[1; 16], &[0, 0, 0, 1]);
    check(&mut random, &K, &[0; 16], &[1, 1, 1, 0]);
    check(&mut random, &K, &[1, 0], &[1, 1, 1, 1]);
    check(&mut random, &K, &[0, 1, 0, 1], &[1, 1, 1, 1]);
    let four = wires(4);
    let all: Vec<u8> = (0..16).collect();
    check(&mut random, &four, &all, &[1; 16]);
    let backwards: Vec<u8> = (0..16).rev().collect();
    check(&mut random, &four, &backwards, &[1; 16]);
    let mut fifteen = all.clone();
    fifteen[6] = 7;
    check(
        &mut random,
        &four,
        &fifteen,
        &[1, 1, 1, 1, 1, 1, 0, 1, 1, 1, 1, 1, 1, 1, 1, 1],
    );
    // The same wire twice: 01 and 10 do not occur.
    let twice = with(&wires(2), &[(5, 0)]);
    check(&mut random, &twice, &[1, 2], &[0, 0, 0, 0]);
    check(&mut random, &twice, &[1, 2, 3], &[0, 1, 0, 1]);
}

/// A row of gates with so many outputs, all of them input 0.
fn of_gates(gates: usize, outputs: usize) -> Vec<u8> {
    let mut file = row_of_gates(gates);
    file.counts[1] = outputs as u32;
    file.outputs = vec![0; outputs];
    file.bytes()
}

/// G + O + N (O + 1) is 100,000, and one more; entries that are there twice count, also
/// where fewer gates would do.
#[test]
fn the_most_gates() {
    let mut random = Random::new(5);
    for (outputs, count) in [(1_usize, 1), (1, 16), (9, 3), (256, 1), (256, 16)] {
        let added = outputs + count * (outputs + 1);
        let list = vec![0; count * outputs.div_ceil(8)];
        let most = of_gates(100_000 - added, outputs);
        let built = build(&mut random, &most, &list).expect("built");
        let asked = OneOf::of(&most, &list).expect("a list");
        assert!(expect(&built, &asked, &[0]) && !expect(&built, &asked, &[1]));
        let more = of_gates(100_001 - added, outputs);
        assert_eq!(build(&mut random, &more, &list), Err(2));
    }
    for gates in [99_998, 99_999, 100_000] {
        assert_eq!(build(&mut random, &of_gates(gates, 1), &[1]), Err(2));
    }
}

/// Faults of a list for a circuit of nine outputs, in their order: the number, and the list.
fn faults_of_lists() -> Vec<(u32, Vec<u8>)> {
    vec![
        (30, vec![]),
        (30, vec![0; 33]),
        (30, vec![0; 34]),
        (30, vec![255; 33]),
        (30, vec![255; 34]),
        (30, vec![0; 4096]),
        (6, vec![0; 1]),
        (6, vec![0; 31]),
        (6, vec![255; 31]),
        (6, vec![0, 255, 0]),
        (7, vec![0, 2]),
        (7, vec![0, 128]),
        (7, vec![255; 32]),
        (7, [vec![0; 31], vec![4]].concat()),
    ]
}

/// Each fault alone, with a circuit that is too large as well, and with one that is
/// damaged; `build` tries each with room and without.
#[test]
fn refusals_in_order() {
    let mut random = Random::new(6);
    let [good, large] = [12, 100_000].map(|gates| of_gates(gates, 9));
    assert!(build(&mut random, &good, &[0; 32]).is_ok());
    assert_eq!(build(&mut random, &large, &[0; 2]), Err(2));
    for (number, list) in faults_of_lists() {
        for circuit in [&good, &large] {
            let answer = build(&mut random, circuit, &list);
            assert_eq!(answer, Err(number), "{list:?}");
        }
        for (circuit_number, damaged) in faults_of_five() {
            let answer = build(&mut random, &damaged, &list);
            assert_eq!(answer, Err(circuit_number), "{list:?}");
        }
    }
}

/// Eight outputs have no unused bits; three have five.
#[test]
fn unused_bits() {
    let mut random = Random::new(7);
    assert!(build(&mut random, &wires(8), &[255; 16]).is_ok());
    assert_eq!(build(&mut random, &wires(8), &[255; 17]), Err(30));
    for bit in 0..8 {
        for place in 0..3 {
            let mut list = [1, 2, 3];
            list[place] ^= 1 << bit;
            let answer = build(&mut random, &FIVE, &list).map(|_| ());
            assert_eq!(answer, if bit < 3 { Ok(()) } else { Err(7) });
        }
    }
}

/// A damage of the circuit, of the list, of both or of none.
#[test]
fn damaged_calls() {
    let mut random = Random::new(8);
    let mut outcomes = Outcomes::default();
    for _ in 0..4_000 {
        let sizes = any_sizes(&mut random);
        let slots = any_slots(&mut random, sizes[2]);
        let file = legal(&mut random, sizes, &slots);
        let count = random.from_to(1, 16);
        let mut list = any_bits(&mut random, 8 * count * sizes[1].div_ceil(8));
        for entry in list.chunks_mut(sizes[1].div_ceil(8)) {
            clear_rest(entry, sizes[1]);
        }
        let which = random.below(8);
        let circuit = match which {
            0..=3 => damaged(&mut random, &file, &slots),
            _ => file.bytes(),
        };
        if matches!(which, 0 | 4 | 5 | 6) {
            damage_list(&mut random, &mut list);
        }
        outcomes.add_answer(&build(&mut random, &circuit, &list));
    }
    outcomes.expect(&[0, 1, 2, 3, 5, 6, 7, 19, 20, 21, 30], 20);
}

fn damage_list(random: &mut Random, list: &mut Vec<u8>) {
    match random.below(6) {
        0 => list.clear(),
        1 => list.push(0),
        2 => list.truncate(random.below(list.len())),
        3 => list.resize(17 * list.len(), 0),
        _ => {
            let [place, bit] = [list.len(), 8].map(|bound| random.below(bound));
            let place = random.pick(&[place, list.len() - 1]);
            list[place] ^= 1 << random.pick(&[7, 7, bit]);
        }
    }
}

/// A circuit of some ANDs, and two witnesses with different outputs.
fn two_rows(random: &mut Random, sizes: [usize; 3]) -> (Vec<u8>, [Vec<u8>; 2]) {
    loop {
        let slots = any_slots(random, sizes[2]);
        let circuit = legal(random, sizes, &slots).bytes();
        let rows = [(); 2].map(|()| any_bits(random, sizes[0]));
        if output(&circuit, &rows[0]) != output(&circuit, &rows[1]) {
            return (circuit, rows);
        }
    }
}

/// Rows that match different entries are proved with the same y; a row that matches none
/// is not.
#[test]
fn proofs() {
    let mut random = Random::new(9);
    for n in COUNTS {
        let (circuit, [row, other]) = two_rows(&mut random, [9, 5, 24]);
        let [first, second] = [&row, &other].map(|row| output(&circuit, row));
        let list = [&first[..], &second, &first].concat();
        let built = build(&mut random, &circuit, &list).expect("built");
        let mut setting = Setting::of_circuit(&mut random, &built, n);
        for row in [&row, &other] {
            setting.witness.clone_from(row);
            let call = Prove::of(&mut random, &setting, [7, 3], 9);
            assert_eq!(call.y, [1]);
            let proof = compare_prove(&mut random, &call).expect("proved");
            assert_eq!(compare_check(&mut random, &call.check(&proof)), Ok(()));
        }
        let one = build(&mut random, &circuit, &first).expect("built");
        let mut setting = Setting::of_circuit(&mut random, &one, n);
        setting.witness = other;
        let mut call = Prove::of(&mut random, &setting, [7, 3], 9);
        assert_eq!(call.y, [0]);
        call.y = vec![1];
        assert_eq!(compare_prove(&mut random, &call), Err(10));
    }
}

/// A showing of the built circuit fits two rows that match different entries, with exactly
/// one row of the hidden party for each; a row that matches none has no partner.
#[test]
fn showings() {
    let mut random = Random::new(10);
    let mut with_and = 0;
    for turn in 0..40 {
        let n = COUNTS[turn % COUNTS.len()];
        let sizes = [random.from_to(2, 4), 2, random.below(3)];
        let (circuit, [row, other]) = two_rows(&mut random, sizes);
        let [first, second] = [&row, &other].map(|row| output(&circuit, row));
        let both = [&first[..], &second].concat();
        let built = build(&mut random, &circuit, &both).expect("built");
        let mut setting = Setting::of_circuit(&mut random, &built, n);
        setting.witness.clone_from(&row);
        if setting.sizes.ands > 4 {
            continue;
        }
        with_and += usize::from(setting.sizes.ands > 0);
        let one = build(&mut random, &circuit, &first).expect("built");
        let mut alone = Setting::of_circuit(&mut random, &one, n);
        alone.witness = row;
        for p in [random.below(n as usize) as u32, n - 1] {
            check_partners(Call::by_library, &setting, &other, p);
            let pairs = partners(Call::by_library, &alone, &other, p);
            assert!(pairs.iter().all(|(_, partners)| partners.is_empty()));
        }
    }
    assert!(with_and > 10, "{with_and}");
}

/// What is built can be built on again: joined, and asked for one of several outputs.
#[test]
fn built_on_again() {
    let mut random = Random::new(11);
    let built = build(&mut random, &FIVE, &[1, 5, 6]).expect("built");
    let not = build(&mut random, &built, &[0]).expect("built");
    let both = wivulameno::circuit::join_to_vec(&built, &not).expect("joined");
    let asked = OneOf::of(&FIVE, &[1, 5, 6]).expect("a list");
    for witness in 0..32 {
        let expected = if asked.holds(&[witness]) { 1 } else { 2 };
        assert_eq!(output(&both, &[witness]), [expected]);
    }
}

#[test]
fn refusals_by_their_names() {
    assert_eq!(one_of(&K, &[], &mut [0; 400]), Err(Refusal::OutputList));
    assert_eq!(one_of(&K, &[1], &mut []), Err(Refusal::Length));
    assert_eq!(one_of_to_vec(&K, &[2]), Err(Refusal::UnusedBits));
    assert_eq!(one_of_to_vec(&K[1..], &[2]), Err(Refusal::CircuitSizes));
}
