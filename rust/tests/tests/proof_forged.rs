//! Proofs by a prover that is not honest. Its digests, challenge and h* are
//! those of what it made, so the check has to find each fault itself; a fault
//! that the challenge does not meet is accepted, as it must be.

use reference::proof::{instances, Counts, Header, Instance, Statement};
use reference::seeds::{Salt, Value};
use tests::calls::{any_bits, Setting, COUNTS};
use tests::circuits::{File, Gate, AND};
use tests::outcomes::Outcomes;
use tests::proofs::{compare_check, Check, Prove};
use tests::random::Random;
use tests::works;

const FORGERIES: usize = 4_000;
const GUESSES: usize = 600;

/// Three inputs. The outputs are 0 AND 1 and input 2; nobody reads 1 AND 2,
/// whose correction is the second.
fn file() -> File {
    let gate = |b, next| Gate {
        kind: AND,
        a: 1,
        b,
        next,
    };
    File {
        counts: [3, 2, 2],
        head: 1,
        outputs: vec![3, 2],
        gates: vec![gate(0, 2), gate(2, 0)],
    }
}

/// A witness for the output 1, and one for the output 0.
const RIGHT: [u8; 1] = [0b011];
const WRONG: [u8; 1] = [0b010];
const ANDS: usize = 2;
const UNUSED: u8 = 0x80;

/// What is wrong with an instance; the party is that of the fault.
#[derive(Clone, Copy, Debug)]
enum Fault {
    Nothing,
    /// Run with a witness for another output.
    Output,
    /// The same, with the party's share of that output turned.
    OutputTurned(usize),
    /// A bit out of use.
    UnusedInCorrections,
    UnusedInInputs,
    UnusedInRow(usize),
    /// The correction of the gate that nobody reads.
    Correction,
    /// A commitment with another r.
    Commitment(usize),
}

use Fault::*;

fn any_fault(random: &mut Random, n: u32) -> Fault {
    let i = random.below(n as usize);
    let faults = [
        Output,
        OutputTurned(i),
        UnusedInCorrections,
        UnusedInInputs,
        UnusedInRow(i),
        Correction,
        Commitment(i),
    ];
    match random.below(2) {
        0 => Nothing,
        _ => random.pick(&faults),
    }
}

/// What the check of this instance alone finds. An instance that is not chosen
/// shows its preprocessing; a chosen one all but party p.
fn found(fault: Fault, n: u32, hidden: Option<u8>) -> u32 {
    let Some(p) = hidden.map(usize::from) else {
        return match fault {
            UnusedInCorrections | Correction | Commitment(_) => 13,
            _ => 0,
        };
    };
    match fault {
        Nothing | Correction => 0,
        Output => 10,
        OutputTurned(i) => u32::from(i != p) * 10,
        UnusedInCorrections => u32::from(p != n as usize - 1) * 7,
        UnusedInInputs => 7,
        UnusedInRow(i) => [13, 7][usize::from(i == p)],
        Commitment(i) => u32::from(i != p) * 13,
    }
}

/// The first in the paper's order of what was found.
fn first(found: &[u32]) -> Result<(), u32> {
    let order = [7, 10, 13].into_iter();
    let mut refusals = order.filter(|refusal| found.contains(refusal));
    refusals.next().map_or(Ok(()), Err)
}

/// Makes the fault in `instance`; `other` is the same instance for the witness
/// of another output.
fn forge(fault: Fault, n: u32, mut instance: Instance, mut other: Instance) -> Instance {
    let row = |i: usize| i * (instance.rows.len() / n as usize);
    match fault {
        Nothing => {}
        Output => return other,
        OutputTurned(i) => {
            other.rows[row(i)] ^= 1 << ANDS;
            return other;
        }
        UnusedInCorrections => instance.preprocessing.corrections[0] |= UNUSED,
        UnusedInInputs => instance.masked_inputs[0] |= UNUSED,
        UnusedInRow(i) => {
            let place = row(i);
            instance.rows[place] |= UNUSED;
        }
        Correction => {
            instance.preprocessing.corrections[0] ^= 1 << 1;
            run_again(n, &mut instance);
        }
        Commitment(i) => instance.preprocessing.seeds[i][1][0] ^= 1,
    }
    instance
}

/// Runs the instance with the corrections that it has now.
fn run_again(n: u32, instance: &mut Instance) {
    let out = reference::mpc::RunOut {
        masked_inputs: &mut instance.masked_inputs,
        rows: &mut instance.rows,
        y: &mut [0],
    };
    let preprocessing = &instance.preprocessing;
    let (tapes, corrections) = (&preprocessing.tapes, &preprocessing.corrections);
    let circuit = file().bytes();
    let mut work = vec![0; works::least(&circuit)];
    let answer = reference::mpc::run(&circuit, n, &RIGHT, tapes, corrections, out, &mut work);
    answer.expect("no refusal");
}

fn any_counts(random: &mut Random) -> Counts {
    let m = random.from_to(2, 6);
    Counts {
        m: m as u32,
        tau: random.from_to(1, m - 1) as u32,
        n: random.pick(&COUNTS),
    }
}

fn any_root(random: &mut Random) -> Value {
    random.bytes(16).try_into().expect("16 bytes")
}

/// The salt of every proof here.
const SALT: Salt = [0x5a; 32];

/// The proof file that these instances lead to.
fn written(root: Value, instances: &[Instance], counts: Counts, statement: Statement) -> Vec<u8> {
    let header = Header::of(instances, SALT, counts);
    reference::proof::written(root, instances, statement, header)
}

/// Each instance is good or has any fault.
#[test]
fn any_faults() {
    let mut random = Random::new(101);
    let circuit = file().bytes();
    let mut outcomes = Outcomes::default();
    for _ in 0..FORGERIES {
        let (counts, root) = (any_counts(&mut random), any_root(&mut random));
        let n = counts.n;
        let faults: Vec<Fault> = (0..counts.m).map(|_| any_fault(&mut random, n)).collect();
        let good = instances(&circuit, &RIGHT, root, SALT, counts);
        let others = instances(&circuit, &WRONG, root, SALT, counts);
        let forged = good.into_iter().zip(others).zip(&faults);
        let forged: Vec<Instance> = forged
            .map(|((good, other), fault)| forge(*fault, n, good, other))
            .collect();
        let call = Check {
            circuit: circuit.clone(),
            y: vec![1],
            message: random.bytes(5),
            proof: vec![],
            work_len: works::least(&circuit),
        };
        let proof = written(root, &forged, counts, call.statement());
        let call = Check { proof, ..call };
        let hidden = call.hidden();
        let each = faults.iter().zip(&hidden);
        let each: Vec<u32> = each.map(|(fault, p)| found(*fault, n, *p)).collect();
        let answer = compare_check(&mut random, &call);
        assert_eq!(answer, first(&each), "{faults:?}, {hidden:?}");
        outcomes.add_answer(&answer);
    }
    outcomes.expect(&[0, 7, 10, 13], 150);
}

/// A prover without a fault makes the bytes of prove.
#[test]
fn no_faults() {
    let mut random = Random::new(102);
    for n in COUNTS {
        let setting = Setting::of_sizes(&mut random, [9, 3, 12], n);
        let mut call = Prove::of(&mut random, &setting, [7, 3], 5);
        call.salt = SALT.to_vec();
        let counts = Counts { m: 7, tau: 3, n };
        let root: Value = call.root[..].try_into().expect("16 bytes");
        let made = instances(&call.circuit, &call.witness, root, SALT, counts);
        let proof = written(root, &made, counts, call.statement());
        assert!(Ok(&proof) == call.by_reference().as_ref(), "n {n}");
    }
}

/// Any circuit whose output is another for this other witness.
fn two_outputs(random: &mut Random, n: u32) -> (Setting, Vec<u8>) {
    loop {
        let sizes = [12, 9, 30].map(|most| random.from_to(1, most));
        let setting = Setting::of_sizes(random, sizes, n);
        let witness = any_bits(random, sizes[0]);
        let other = Setting {
            witness,
            ..setting.clone()
        };
        if other.y() != setting.y() {
            return (setting, other.witness);
        }
    }
}

/// The prover has no witness for y. In each instance it guesses a party, and
/// turns that party's shares of the outputs so that y comes out: accepted where
/// every guess that is met is right.
#[test]
fn guessed_parties() {
    let mut random = Random::new(103);
    let mut outcomes = Outcomes::default();
    for _ in 0..GUESSES {
        let counts = any_counts(&mut random);
        let n = counts.n as usize;
        let (setting, other) = two_outputs(&mut random, counts.n);
        let call = Prove::of(&mut random, &setting, [counts.m, counts.tau], 5);
        let root = any_root(&mut random);
        let mut made = instances(&call.circuit, &other, root, SALT, counts);
        let guesses: Vec<usize> = made.iter().map(|_| random.below(n)).collect();
        let turned = turned_outputs(&setting, &other);
        for (instance, guess) in made.iter_mut().zip(&guesses) {
            let row_len = instance.rows.len() / n;
            let row = &mut instance.rows[guess * row_len..][..row_len];
            for output in &turned {
                let place = setting.sizes.ands + output;
                row[place / 8] ^= 1 << (place % 8);
            }
        }
        let proof = written(root, &made, counts, call.statement());
        let check = call.check(&proof);
        let each = check.hidden().into_iter().zip(guesses);
        let mut met = each.filter_map(|(p, guess)| p.map(|p| usize::from(p) == guess));
        let expected = if met.all(|right| right) {
            Ok(())
        } else {
            Err(10)
        };
        let answer = compare_check(&mut random, &check);
        assert_eq!(answer, expected, "{counts:?}");
        outcomes.add_answer(&answer);
    }
    outcomes.expect(&[0, 10], GUESSES / 20);
}

/// The outputs that differ between the two witnesses.
fn turned_outputs(setting: &Setting, other: &[u8]) -> Vec<usize> {
    let mut y = vec![0; setting.sizes.y_len()];
    let answer = reference::circuit::evaluate(&setting.circuit, other, &mut y);
    answer.expect("a legal file");
    let right = setting.y();
    let bit = |bytes: &[u8], place: usize| bytes[place / 8] >> (place % 8) & 1;
    let outputs = 0..setting.sizes.outputs;
    let turned = outputs.filter(|&output| bit(&y, output) != bit(&right, output));
    turned.collect()
}

/// A prover that works instance 0 and repeats what it broadcasts.
#[test]
fn repeated_broadcasts() {
    let mut random = Random::new(104);
    let mut outcomes = Outcomes::default();
    for _ in 0..GUESSES {
        let counts = any_counts(&mut random);
        let setting = Setting::of_sizes(&mut random, [20, 1, 90], counts.n);
        let call = Prove::of(&mut random, &setting, [counts.m, counts.tau], 5);
        let root = any_root(&mut random);
        let mut made = instances(&call.circuit, &call.witness, root, SALT, counts);
        let (inputs, rows) = (made[0].masked_inputs.clone(), made[0].rows.clone());
        for instance in &mut made {
            instance.masked_inputs.clone_from(&inputs);
            instance.rows.clone_from(&rows);
        }
        let check = call.check(&written(root, &made, counts, call.statement()));
        let chosen = check.hidden();
        let answer = compare_check(&mut random, &check);
        let only_0 = chosen[1..].iter().all(Option::is_none);
        assert_eq!(answer.is_ok(), only_0, "{counts:?}, {chosen:?}");
        outcomes.add_answer(&answer);
    }
    outcomes.expect(&[0, 10, 13], 20);
}

/// Honest instances under an h* with one bit turned, and what the challenge of
/// that h* asks for: all fits but h*.
#[test]
fn another_h_star() {
    let mut random = Random::new(105);
    for n in COUNTS {
        let setting = Setting::of_sizes(&mut random, [9, 3, 12], n);
        let call = Prove::of(&mut random, &setting, [5, 2], 5);
        let counts = Counts { m: 5, tau: 2, n };
        let root = any_root(&mut random);
        let made = instances(&call.circuit, &call.witness, root, SALT, counts);
        for bit in 0..256 {
            let mut header = Header::of(&made, SALT, counts);
            header.h_star[bit / 8] ^= 1 << (bit % 8);
            let proof = reference::proof::written(root, &made, call.statement(), header);
            let answer = compare_check(&mut random, &call.check(&proof));
            assert_eq!(answer, Err(13), "n {n}, bit {bit}");
        }
    }
}

/// Honest instances under a salt with one bit turned, and what the challenge of that
/// salt asks for: the nodes and the openings are those of the other salt, all digests
/// those of the first. Each chosen instance has the tapes of another salt than its rows.
#[test]
fn another_salt() {
    let mut random = Random::new(106);
    let mut outcomes = Outcomes::default();
    for n in COUNTS {
        let setting = Setting::of_sizes(&mut random, [9, 3, 12], n);
        let call = Prove::of(&mut random, &setting, [5, 2], 5);
        let counts = Counts { m: 5, tau: 2, n };
        let root = any_root(&mut random);
        let made = instances(&call.circuit, &call.witness, root, SALT, counts);
        for bit in 0..256 {
            let mut header = Header::of(&made, SALT, counts);
            header.salt[bit / 8] ^= 1 << (bit % 8);
            let proof = reference::proof::written(root, &made, call.statement(), header);
            let refusal = compare_check(&mut random, &call.check(&proof));
            let refusal = refusal.expect_err("another salt");
            assert!([10, 13].contains(&refusal), "{refusal}, n {n}, bit {bit}");
            outcomes.add(refusal);
        }
    }
    outcomes.expect(&[10, 13], 20);
}
