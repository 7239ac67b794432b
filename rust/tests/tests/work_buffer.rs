//! The work buffer of the six operations: its lengths, what it holds before, and what it
//! holds after every answer there is. `compare` and its sisters hold each call against the
//! paper's sentence: untouched if the circuit is refused or the buffer is too short, else
//! all zero.

use tests::calls::{compare, Call, Setting, COUNTS};
use tests::circuits::{faults_of_five, legal, with, AND, FIVE};
use tests::outcomes::Outcomes;
use tests::proofs::{compare_check, compare_prove, Check, Prove, HEADER};
use tests::random::Random;
use wivulameno::proof::{check, prove, Counts, Statement};
use wivulameno::{Refusal, Work};

/// A good call of each operation.
struct All {
    runs: [Call; 4],
    prove: Prove,
    check: Check,
}

impl All {
    fn of(random: &mut Random, setting: &Setting) -> All {
        let whole = setting.whole();
        let p = random.below(setting.n as usize) as u32;
        let corrections = setting.prepare().by_reference().expect("prepared");
        let shown = setting.show(p, whole).by_reference().expect("shown");
        let prove = Prove::of(random, setting, [4, 2], 9);
        let proof = prove.by_reference().expect("proved");
        All {
            runs: [
                setting.prepare(),
                setting.run(&corrections[0]),
                setting.show(p, whole),
                setting.replay(p, &shown, &setting.y()),
            ],
            check: prove.check(&proof),
            prove,
        }
    }

    /// The answers of all six with a work buffer of this length.
    fn answers(&self, random: &mut Random, work_len: usize) -> [Option<u32>; 6] {
        let [a, b, c, d] = self.runs.each_ref().map(|call| {
            let call = Call {
                work_len,
                ..call.clone()
            };
            compare(random, &call).err()
        });
        let prove = Prove {
            work_len,
            ..self.prove.clone()
        };
        let check = Check {
            work_len,
            ..self.check.clone()
        };
        let e = compare_prove(random, &prove).err();
        let f = compare_check(random, &check).err();
        [a, b, c, d, e, f]
    }

    /// All six with another circuit.
    fn with_circuit(mut self, circuit: &[u8]) -> All {
        self.runs
            .iter_mut()
            .for_each(|call| call.circuit = circuit.to_vec());
        self.prove.circuit = circuit.to_vec();
        self.check.circuit = circuit.to_vec();
        self
    }
}

fn five(random: &mut Random, n: u32) -> All {
    let slots = vec![3, 1, 4, 2, 5];
    let mut file = legal(random, [5, 3, 5], &slots);
    file.outputs = vec![9, 4, 6];
    let setting = Setting::of(random, file, slots, n);
    All::of(random, &setting)
}

/// 64 (I + G) + 4,096 bytes are enough, and so is every longer buffer; one byte less is
/// refused with 6.
#[test]
fn exact_longer_and_one_byte_short() {
    let mut random = Random::new(1);
    for sizes in [
        [1, 1, 0],
        [5, 3, 5],
        [512, 256, 0],
        [512, 1, 1],
        [9, 9, 700],
    ] {
        let least = 64 * (sizes[0] + sizes[2]) + 4096;
        for n in COUNTS {
            let setting = Setting::of_sizes(&mut random, sizes, n);
            let all = All::of(&mut random, &setting);
            for len in [least, least + 1, least + 8, 2 * least, least + 100_003] {
                assert_eq!(all.answers(&mut random, len), [None; 6], "{sizes:?}, {len}");
            }
            for len in [0, 1, 4096, least - 64, least - 8, least - 1] {
                let len = len.min(least - 1);
                let answers = all.answers(&mut random, len);
                assert_eq!(answers, [Some(6); 6], "{sizes:?}, {len}");
            }
        }
    }
}

/// The most gates, all of them AND, for 64 parties: the tapes, the words and the rows of all
/// of them fit the least buffer.
#[test]
fn exact_for_the_most_parties_and_gates() {
    let mut random = Random::new(7);
    let least = 64 * 100_001 + 4096;
    let slots: Vec<usize> = (1..=100_000).collect();
    let mut file = legal(&mut random, [1, 1, 100_000], &slots);
    file.gates.iter_mut().for_each(|gate| gate.kind = AND);
    let setting = Setting::of(&mut random, file, slots, 64);
    assert_eq!(setting.sizes.ands, 100_000);
    let all = All::of(&mut random, &setting);
    assert_eq!(all.answers(&mut random, least), [None; 6]);
    assert_eq!(all.answers(&mut random, least - 1), [Some(6); 6]);
}

/// Outputs and AND gates do not count.
#[test]
fn only_inputs_and_gates_count() {
    let mut random = Random::new(2);
    for outputs in [1, 256] {
        let setting = Setting::of_sizes(&mut random, [20, outputs, 50], 4);
        let all = All::of(&mut random, &setting);
        let least = 64 * 70 + 4096;
        assert_eq!(all.answers(&mut random, least), [None; 6]);
        assert_eq!(all.answers(&mut random, least - 1), [Some(6); 6]);
    }
}

/// A refused circuit comes before the buffer's length, whatever that is.
#[test]
fn refused_circuits_leave_it() {
    let mut random = Random::new(3);
    let least = 64 * 10 + 4096;
    for (refusal, circuit) in faults_of_five() {
        let all = five(&mut random, 4).with_circuit(&circuit);
        for len in [0, least - 1, least, 3 * least] {
            let answers = all.answers(&mut random, len);
            assert_eq!(answers, [Some(refusal); 6], "{len}");
        }
    }
}

/// Every later refusal of every operation, with a buffer that is long enough: all zero.
#[test]
fn later_refusals_clear_it() {
    let mut random = Random::new(4);
    let mut outcomes = Outcomes::default();
    for n in COUNTS {
        for _ in 0..40 {
            let all = five(&mut random, n);
            let least = 64 * 10 + 4096;
            for call in &all.runs {
                for mut call in spoiled_calls(call) {
                    call.work_len = least + random.below(2) * random.below(9000);
                    let answer = compare(&mut random, &call);
                    assert!(answer.is_err(), "{}", call.shown());
                    outcomes.add_answer(&answer);
                }
            }
            for mut call in spoiled_proves(&all.prove) {
                call.work_len = least + random.below(2) * random.below(9000);
                let answer = compare_prove(&mut random, &call);
                assert!(answer.is_err(), "{}", call.shown());
                outcomes.add_answer(&answer);
            }
            for mut call in spoiled_checks(&all.check) {
                call.work_len = least + random.below(2) * random.below(9000);
                let answer = compare_check(&mut random, &call);
                assert!(answer.is_err(), "{}", call.shown());
                outcomes.add_answer(&answer);
            }
        }
    }
    outcomes.expect(&[6, 7, 8, 9, 10, 11, 12, 13], 40);
}

/// The call with one thing wrong: n, p, a length, an unused bit, the output.
fn spoiled_calls(call: &Call) -> Vec<Call> {
    use tests::calls::Operation::{Replay, Show};
    let mut all = vec![];
    let mut add = |change: fn(&mut Call)| {
        let mut call = call.clone();
        change(&mut call);
        all.push(call);
    };
    add(|call| call.n = 3);
    add(|call| call.inputs[0].push(0));
    add(|call| call.out_lens[0] += 1);
    add(|call| *call.inputs[0].last_mut().expect("a byte") |= 0x80);
    if [Show, Replay].contains(&call.operation) {
        add(|call| call.p = call.n);
    }
    if call.operation == Show {
        add(|call| call.cut = 6);
    }
    if call.operation == Replay {
        add(|call| call.inputs[4][0] ^= 1);
    }
    all
}

fn spoiled_proves(call: &Prove) -> Vec<Prove> {
    let changes: [fn(&mut Prove); 9] = [
        |call| call.counts[0] = 1,
        |call| call.counts[1] = 0,
        |call| call.counts[2] = 5,
        |call| call.root.push(0),
        |call| call.salt.truncate(31),
        |call| call.proof_len -= 1,
        |call| call.message = vec![0; 4097],
        |call| call.witness[0] |= 0x80,
        |call| call.y[0] ^= 1,
    ];
    let spoil = |change: fn(&mut Prove)| {
        let mut call = call.clone();
        change(&mut call);
        call
    };
    changes.map(spoil).into()
}

/// The y of another output and the bits of a proof meet different refusals.
fn spoiled_checks(call: &Check) -> Vec<Check> {
    let changes: [fn(&mut Check); 10] = [
        |call| call.y.push(0),
        |call| call.y[0] |= 0x80,
        |call| call.message = vec![0; 4097],
        |call| call.proof.truncate(HEADER - 1),
        |call| call.proof[5] = 1,
        |call| call.proof.push(0),
        |call| call.proof.truncate(100),
        |call| call.proof[HEADER] ^= 1,
        |call| {
            let last = call.proof.len() - 1;
            call.proof[last] ^= 0x08;
        },
        |call| {
            let last = call.proof.len() - 1;
            call.proof[last] ^= 0x80;
        },
    ];
    let spoil = |change: fn(&mut Check)| {
        let mut call = call.clone();
        change(&mut call);
        call
    };
    changes.map(spoil).into()
}

/// What the buffer holds before does not matter.
#[test]
fn its_bytes_before_do_not_matter() {
    let mut random = Random::new(5);
    let all = five(&mut random, 8);
    let [m, tau, n] = all.prove.counts;
    let counts = Counts { m, tau, n };
    let statement = Statement {
        circuit: &all.prove.circuit,
        y: &all.prove.y,
        message: &all.prove.message,
    };
    let expected = all.prove.by_reference().expect("proved");
    let random_bytes = random.bytes(4736);
    for before in [vec![0; 4736], vec![0xff; 4736], random_bytes] {
        let mut bytes = before.clone();
        let mut work = Work::lent(&mut bytes);
        let mut proof = vec![0; all.prove.proof_len];
        let (witness, root, salt) = (&all.prove.witness, &all.prove.root, &all.prove.salt);
        let len = prove(
            statement, witness, root, salt, counts, &mut proof, &mut work,
        );
        proof.truncate(len.expect("proved"));
        assert_eq!(proof, expected);
        assert_eq!(bytes, vec![0; 4736]);
        let mut bytes = before;
        let answer = check(statement, &proof, &mut Work::lent(&mut bytes));
        assert_eq!((answer, bytes), (Ok(()), vec![0; 4736]));
    }
}

/// One buffer for a large circuit and then for a small one, and the other way round.
#[test]
fn one_buffer_is_used_again() {
    let mut random = Random::new(6);
    let small = wivulameno::circuit::sizes(&FIVE).expect("a circuit");
    let mut work = Work::for_circuit(&FIVE).expect("a circuit");
    let large = Setting::of_sizes(&mut random, [40, 9, 900], 4);
    let sizes = wivulameno::circuit::sizes(&large.circuit).expect("a circuit");
    let mut prove_large = |work: &mut Work| {
        let call = Prove::of(&mut random, &large, [3, 1], 4);
        let statement = Statement {
            circuit: &call.circuit,
            y: &call.y,
            message: &call.message,
        };
        let counts = Counts { m: 3, tau: 1, n: 4 };
        let mut proof = vec![0; call.proof_len];
        let (witness, root, salt) = (&call.witness, &call.root, &call.salt);
        let len = prove(statement, witness, root, salt, counts, &mut proof, work)?;
        check(statement, &proof[..len], work)
    };
    assert_eq!(prove_large(&mut work), Err(Refusal::Length));
    work.grow_for(sizes);
    assert_eq!(prove_large(&mut work), Ok(()));
    work.grow_for(small);
    assert_eq!(work.len(), sizes.work_len());
    assert_eq!(prove_large(&mut work), Ok(()));
    let bad = with(&FIVE, &[(0, 0)]);
    assert_eq!(Work::for_circuit(&bad).err(), Some(Refusal::CircuitSizes));
}
