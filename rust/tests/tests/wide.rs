//! Circuits of 90,000 and 100,000 gates, which 16 bits could not count: all operations by
//! both implementations.

use tests::calls::{compare, Setting};
use tests::circuits::{legal, row_of_gates, AND, INV, XOR};
use tests::proofs::{compare_check, compare_prove, Prove};
use tests::random::Random;
use tests::works;

/// Any circuit with so many gates, in an order of the chain that has nothing to do with
/// the slots, and wires far apart.
fn setting(random: &mut Random, sizes: [usize; 3], n: u32) -> Setting {
    let slots = random.order(sizes[2]);
    let file = legal(random, sizes, &slots);
    Setting::of(random, file, slots, n)
}

/// Prepare, run, show at some cuts and replay agree, and close with the output.
fn compare_runs(random: &mut Random, setting: &Setting) {
    let corrections = compare(random, &setting.prepare()).expect("prepared");
    let ran = compare(random, &setting.run(&corrections[0])).expect("run");
    assert!(ran[2] == setting.y());
    let p = random.below(setting.n as usize) as u32;
    for cut in [0, setting.whole() / 2, setting.whole() - 1] {
        compare(random, &setting.show(p, cut)).expect("shown");
    }
    for p in [p, setting.n - 1] {
        let shown = compare(random, &setting.show(p, setting.whole())).expect("shown");
        let rows = compare(random, &setting.replay(p, &shown, &ran[2])).expect("replayed");
        assert!(rows[0] == ran[1], "p {p}");
    }
}

fn compare_proofs(random: &mut Random, setting: &Setting, counts: [u32; 2]) {
    let call = Prove::of(random, setting, counts, 17);
    let proof = compare_prove(random, &call).expect("proved");
    let mut check = call.check(&proof);
    assert_eq!(compare_check(random, &check), Ok(()));
    let last = check.proof.len() - 1;
    check.proof[last / 2] ^= 1;
    assert!(compare_check(random, &check).is_err());
}

#[test]
fn gates_90_000() {
    let mut random = Random::new(0x90);
    let setting = setting(&mut random, [96, 48, 90_000], 4);
    compare_runs(&mut random, &setting);
    compare_proofs(&mut random, &setting, [3, 1]);
}

/// All limits at once: 100,000 gates, 512 inputs, 256 outputs, 64 parties. The work buffer
/// has its least length.
#[test]
fn the_largest() {
    let mut random = Random::new(0x100);
    let setting = setting(&mut random, [512, 256, 100_000], 64);
    assert_eq!(works::least(&setting.circuit), 6_436_864);
    assert_eq!(setting.prepare().work_len, 6_436_864);
    compare_runs(&mut random, &setting);
    compare_proofs(&mut random, &setting, [2, 1]);
}

/// 100,000 AND gates: the longest rows and corrections, for the fewest parties and, with
/// the most words in the least work buffer, for the most.
#[test]
fn ands_100_000() {
    let mut random = Random::new(0x101);
    let slots: Vec<usize> = (1..=100_000).collect();
    let mut file = legal(&mut random, [512, 256, 100_000], &slots);
    file.gates.iter_mut().for_each(|gate| gate.kind = AND);
    for n in [2, 64] {
        let setting = Setting::of(&mut random, file.clone(), slots.clone(), n);
        assert_eq!(setting.sizes.ands, 100_000);
        assert_eq!(setting.prepare().work_len, 6_436_864);
        compare_runs(&mut random, &setting);
        compare_proofs(&mut random, &setting, [2, 1]);
    }
}

/// One gate more is refused by every operation, and the work buffer stays.
#[test]
fn gates_100_001() {
    let mut random = Random::new(0x102);
    let good = setting(&mut random, [3, 2, 12], 4);
    let circuit = row_of_gates(100_001).bytes();
    let shown = good.show(1, 12).by_reference().expect("shown");
    let corrections = good.prepare().by_reference().expect("prepared");
    for mut call in [
        good.prepare(),
        good.run(&corrections[0]),
        good.show(1, 12),
        good.replay(1, &shown, &good.y()),
    ] {
        call.circuit.clone_from(&circuit);
        call.work_len = 6_500_000;
        assert_eq!(compare(&mut random, &call), Err(2));
    }
    let mut prove = Prove::of(&mut random, &good, [3, 1], 5);
    let mut check = prove.check(&prove.by_reference().expect("proved"));
    prove.circuit.clone_from(&circuit);
    check.circuit.clone_from(&circuit);
    assert_eq!(compare_prove(&mut random, &prove), Err(2));
    assert_eq!(compare_check(&mut random, &check), Err(2));
}

/// A chain of INV and XOR through all slots backwards, with a value that is known: each
/// gate inverts the one before, so that an even number of them gives the input.
#[test]
fn a_value_by_hand() {
    for gates in [90_000, 99_999, 100_000] {
        let mut file = row_of_gates(gates);
        file.link(&(1..=gates).rev().collect::<Vec<_>>());
        for slot in 1..gates {
            // Slot k + 1 writes wire 1 + k.
            file.gates[slot - 1].a = 1 + slot as u32;
        }
        file.outputs = vec![1];
        assert!(file.gates.iter().all(|gate| gate.kind == INV));
        for witness in [0, 1] {
            let mut y = [0xa5];
            let answer = wivulameno::circuit::evaluate(&file.bytes(), &[witness], &mut y);
            assert_eq!((answer, y), (Ok(()), [witness ^ (gates % 2) as u8]));
        }
        // With the last gate an XOR of input 0 and the wire before, the value is known too.
        file.gates[0].kind = XOR;
        file.gates[0].b = 0;
        for witness in [0, 1] {
            let mut y = [0xa5];
            let answer = wivulameno::circuit::evaluate(&file.bytes(), &[witness], &mut y);
            assert_eq!((answer, y), (Ok(()), [((gates - 1) % 2) as u8]));
        }
    }
}
