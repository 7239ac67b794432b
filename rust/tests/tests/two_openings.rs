//! Two openings of one run with different hidden parties give up the witness:
//! the statement of `crates/openings` on calls of replay, and what a buyer reads
//! from two proofs that were made from one root.

use reference::bits::clear_rest;
use reference::circuit::Sizes;
use reference::seeds::{opened_leaves, seed_and_r, tape_row, Context, Value};
use tests::calls::{any_bits, compare, Answer, Call, Operation, Setting};
use tests::circuits::K;
use tests::pages::page;
use tests::proofs::{compare_check, compare_prove, longest, places, Check, Prove, SALT};
use tests::random::Random;
use tests::works;
use wivulameno::Refusal;

/// Masked inputs XOR input masks: with the tape rows of all parties.
fn unmasked(sizes: Sizes, masked_inputs: &[u8], tapes: &[Vec<u8>]) -> Vec<u8> {
    let mut bytes = masked_inputs.to_vec();
    for row in tapes {
        for (byte, mask) in bytes.iter_mut().zip(row) {
            *byte ^= mask;
        }
    }
    clear_rest(&mut bytes, sizes.inputs);
    bytes
}

/// What two openings have together: corrections, masked inputs, broadcast rows.
#[derive(Clone, Debug)]
struct Parts {
    corrections: Vec<u8>,
    masked_inputs: Vec<u8>,
    rows: Vec<u8>,
}

impl Parts {
    /// The parts of a run with these corrections, and its output.
    fn of(setting: &Setting, corrections: Vec<u8>) -> (Parts, Vec<u8>) {
        let run = setting.run(&corrections).by_library().expect("no refusal");
        let [masked_inputs, rows, y]: [Vec<u8>; 3] = run.try_into().expect("three buffers");
        let parts = Parts {
            corrections,
            masked_inputs,
            rows,
        };
        (parts, y)
    }

    /// The showing with party p hidden.
    fn hiding(&self, setting: &Setting, p: u32) -> [Vec<u8>; 4] {
        let (tape_len, row_len) = (setting.sizes.tape_row_len(), setting.sizes.row_len());
        let mut tapes = setting.tapes.clone();
        tapes[p as usize * tape_len..][..tape_len].fill(0);
        let mut corrections = self.corrections.clone();
        if p == setting.n - 1 {
            corrections.fill(0);
        }
        let row = self.rows[p as usize * row_len..][..row_len].to_vec();
        [tapes, corrections, self.masked_inputs.clone(), row]
    }

    /// The rows of the replay with p hidden.
    fn replay(&self, setting: &Setting, p: u32, y: &[u8]) -> Answer {
        let call = setting.replay(p, &self.hiding(setting, p), y);
        call.by_library()
    }

    /// Does the replay with p hidden succeed with output y and give these rows?
    fn replays(&self, setting: &Setting, p: u32, y: &[u8]) -> bool {
        self.replay(setting, p, y) == Ok(vec![self.rows.clone()])
    }

    /// The masked inputs XOR the input masks.
    fn bytes(&self, setting: &Setting) -> Vec<u8> {
        let tapes = setting.tapes.chunks(setting.sizes.tape_row_len());
        let tapes: Vec<Vec<u8>> = tapes.map(<[u8]>::to_vec).collect();
        unmasked(setting.sizes, &self.masked_inputs, &tapes)
    }

    /// Are these bytes a witness of y?
    fn give_a_witness(&self, setting: &Setting, y: &[u8]) -> bool {
        let bytes = self.bytes(setting);
        let mut output = vec![0; y.len()];
        let answer = wivulameno::circuit::evaluate(&setting.circuit, &bytes, &mut output);
        answer.expect("the bytes are a witness in form");
        output == y
    }
}

fn right_corrections(setting: &Setting) -> Vec<u8> {
    let answer = setting.prepare().by_library().expect("no refusal");
    answer.concat()
}

/// Two different parties, often the last one.
fn two_parties(random: &mut Random, n: u32) -> [u32; 2] {
    let any = random.below(n as usize) as u32;
    let p = random.pick(&[any, n - 1]);
    let q = (p + 1 + random.below(n as usize - 1) as u32) % n;
    [p, q]
}

/// Of every run with right corrections the replays of two parties succeed, and the
/// bytes are its witness.
#[test]
fn openings_of_runs() {
    let mut random = Random::new(61);
    for _ in 0..400 {
        let setting = Setting::any(&mut random);
        let (parts, y) = Parts::of(&setting, right_corrections(&setting));
        for p in two_parties(&mut random, setting.n) {
            assert!(parts.replays(&setting, p, &y), "p {p}, {setting:02x?}");
        }
        assert!(parts.give_a_witness(&setting, &y), "{setting:02x?}");
        assert_eq!(parts.bytes(&setting), setting.witness);
    }
}

/// A small setting, and parts of which some bits of the rows are others.
fn damaged_parts(
    random: &mut Random,
    corrections: fn(&mut Random, &Setting) -> Vec<u8>,
) -> (Setting, Parts) {
    let sizes = [random.from_to(1, 3), 1, random.from_to(1, 20)];
    let n = random.pick(&[2, 4]);
    let setting = Setting::of_sizes(random, sizes, n);
    let corrections = corrections(random, &setting);
    let (mut parts, _) = Parts::of(&setting, corrections);
    let (n, len) = (setting.n as usize, setting.sizes.row_len());
    let bits = setting.sizes.ands + setting.sizes.outputs;
    for _ in 0..random.below(4) {
        let place = random.below(bits);
        parts.rows[random.below(n) * len + place / 8] ^= 1 << (place % 8);
    }
    (setting, parts)
}

/// How often both replays succeed with one y and give the rows, and how often the
/// bytes are then no witness of it.
fn count_openings(seed: u64, corrections: fn(&mut Random, &Setting) -> Vec<u8>) -> [usize; 2] {
    let mut random = Random::new(seed);
    let [mut opened, mut broken] = [0; 2];
    for _ in 0..3000 {
        let (setting, parts) = damaged_parts(&mut random, corrections);
        let hidden = two_parties(&mut random, setting.n);
        for y in [[0], [1]] {
            if hidden.iter().all(|&p| parts.replays(&setting, p, &y)) {
                opened += 1;
                broken += usize::from(!parts.give_a_witness(&setting, &y));
            }
        }
    }
    [opened, broken]
}

/// With right corrections no rows, forged ones too, have two openings and no
/// witness.
#[test]
fn right_corrections_give_a_witness() {
    let [opened, broken] = count_openings(62, |_, setting| right_corrections(setting));
    assert!(opened > 500, "{opened} openings");
    assert_eq!(broken, 0);
}

/// With any corrections there are such rows.
#[test]
fn wrong_corrections_can_break_it() {
    let any = |random: &mut Random, setting: &Setting| any_bits(random, setting.sizes.ands);
    let [opened, broken] = count_openings(63, any);
    assert!(opened > 500 && broken > 50, "{broken} of {opened}");
}

/// One opening need not give a witness, and neither does a second one whose replay has the
/// output but other rows: a row of p is forged, and the others follow it.
#[test]
fn both_replays_must_give_the_rows() {
    let mut random = Random::new(67);
    let [mut one_opening, mut other_rows] = [0; 2];
    for _ in 0..3000 {
        let right = |_: &mut Random, setting: &Setting| right_corrections(setting);
        let (setting, mut parts) = damaged_parts(&mut random, right);
        let [p, q] = two_parties(&mut random, setting.n);
        let replays = [[0], [1]].map(|y| (y, parts.replay(&setting, p, &y)));
        let replays = replays.into_iter().find(|(_, answer)| answer.is_ok());
        let (y, answer) = replays.expect("an output");
        parts.rows = answer.expect("no refusal").concat();
        if !parts.give_a_witness(&setting, &y) {
            one_opening += 1;
            other_rows += usize::from(parts.replay(&setting, q, &y).is_ok());
            assert!(!parts.replays(&setting, q, &y), "{setting:02x?}");
        }
    }
    assert!(
        one_opening > 100 && other_rows > 3,
        "{one_opening}, {other_rows}"
    );
}

/// The proved case: K with the tapes of m6 and the correction 0. Both replays give
/// y = 0 and the rows; the bytes are 3, whose output is 1.
#[test]
fn the_case_of_k() {
    for (p, tapes, row) in [(0, [0, 3], 2), (1, [13, 0], 1)] {
        let call = Call {
            operation: Operation::Replay,
            circuit: K.to_vec(),
            n: 2,
            p,
            cut: 0,
            inputs: vec![tapes.to_vec(), vec![0], vec![1], vec![row], vec![0]],
            out_lens: vec![2],
            work_len: 64 * 3 + 4096,
        };
        assert_eq!(compare(&mut Random::new(66), &call), Ok(vec![vec![2, 1]]));
    }
    let sizes = reference::circuit::read(&K).expect("a legal circuit");
    assert_eq!(unmasked(sizes, &[1], &[vec![13], vec![3]]), [3]);
    let mut y = [0];
    assert_eq!(wivulameno::circuit::evaluate(&K, &[3], &mut y), Ok(()));
    assert_eq!(y, [1]);
}

/// What a chosen instance of a proof opens: the tape row of each party but the
/// hidden one, and the masked inputs.
struct Opened {
    tapes: Vec<Option<Vec<u8>>>,
    masked_inputs: Vec<u8>,
}

impl Opened {
    fn of(sizes: Sizes, n: usize, context: Context, p: u8, stretch: &[u8]) -> Opened {
        let siblings = stretch.chunks(16).take(n.ilog2() as usize);
        let siblings: Vec<Value> = siblings.map(|node| node.try_into().unwrap()).collect();
        let leaves = opened_leaves(context, n, p.into(), &siblings);
        let tapes = (0..).zip(leaves).map(|(i, leaf)| {
            let [seed, _] = seed_and_r(context, i, leaf?);
            Some(tape_row(context, i, n, seed, sizes.inputs, sizes.ands))
        });
        let end = stretch.len() - sizes.row_len();
        Opened {
            tapes: tapes.collect(),
            masked_inputs: stretch[end - sizes.inputs_len()..end].to_vec(),
        }
    }

    /// All instances of a proof; `None` for those that are not chosen.
    fn all(sizes: Sizes, n: usize, check: &Check) -> Vec<Option<Opened>> {
        let salt = check.proof[SALT].try_into().expect("32 bytes");
        let instances = (0..).zip(places(sizes, check));
        let opened = instances.map(|(j, (hidden, start, len))| {
            let stretch = &check.proof[start..][..len];
            hidden.map(|p| Opened::of(sizes, n, Context { salt, j }, p, stretch))
        });
        opened.collect()
    }
}

/// What the buyer reads: for each instance that two proofs choose with different
/// hidden parties, the bytes that would be the rows of the one and of the other.
fn side_by_side(sizes: Sizes, n: usize, proofs: [&Check; 2]) -> Vec<[Vec<u8>; 2]> {
    let [one, two] = proofs.map(|check| Opened::all(sizes, n, check));
    let mut read = vec![];
    for (one, two) in one.iter().zip(&two) {
        let (Some(one), Some(two)) = (one, two) else {
            continue;
        };
        let tapes = one.tapes.iter().zip(&two.tapes);
        let tapes: Option<Vec<Vec<u8>>> = tapes.map(|(a, b)| a.clone().or(b.clone())).collect();
        if let Some(tapes) = tapes {
            read.push([one, two].map(|opened| unmasked(sizes, &opened.masked_inputs, &tapes)));
        }
    }
    read
}

const CIRCUIT: &[u8] = include_bytes!("../../../examples/covers16.circuit");

/// Stock and order; the order is 250.
fn row(stock: u16) -> Vec<u8> {
    [stock.to_le_bytes(), 250_u16.to_le_bytes()].concat()
}

/// A proof that this stock covers the order, as the depot makes it and the buyer
/// accepts it: 1, and 250 in the bits after it.
fn proof_of(stock: u16, root: [u8; 16], salt: [u8; 32]) -> Check {
    let sizes = reference::circuit::read(CIRCUIT).expect("a legal circuit");
    let counts = [145, 66, 8];
    let call = Prove {
        circuit: CIRCUIT.to_vec(),
        witness: row(stock),
        y: vec![0xf5, 0x01, 0x00],
        message: b"order 4711".to_vec(),
        root: root.to_vec(),
        salt: salt.to_vec(),
        counts,
        proof_len: longest(sizes, counts),
        work_len: works::least(CIRCUIT),
    };
    let proof = compare_prove(&mut Random::new(64), &call).expect("proved");
    let check = call.check(&proof);
    assert_eq!(compare_check(&mut Random::new(65), &check), Ok(()));
    check
}

/// One root and one salt under two quantities: each proof passes, and both together
/// give the buyer both rows.
#[test]
fn one_root_under_two_rows_gives_both() {
    let sizes = reference::circuit::read(CIRCUIT).expect("a legal circuit");
    let salt = [9; 32];
    let (one, two) = (proof_of(1000, [7; 16], salt), proof_of(813, [7; 16], salt));
    let read = side_by_side(sizes, 8, [&one, &two]);
    assert!(read.len() > 5, "{} instances", read.len());
    for rows in read {
        assert_eq!(rows, [row(1000), row(813)]);
    }
    // One proof beside itself lacks the hidden parties' tapes.
    assert!(side_by_side(sizes, 8, [&one, &one]).is_empty());
}

/// With two salts one root gives two sets of tapes: what is read so is no row.
#[test]
fn one_root_with_two_salts_gives_neither() {
    let sizes = reference::circuit::read(CIRCUIT).expect("a legal circuit");
    let one = proof_of(1000, [7; 16], [9; 32]);
    let two = proof_of(813, [7; 16], [10; 32]);
    let read = side_by_side(sizes, 8, [&one, &two]);
    assert!(read.len() > 5, "{} instances", read.len());
    for [a, b] in read {
        assert!(a != row(1000) && b != row(813));
    }
}

/// With the shelf such proofs are not made: two draws give two roots, and the page
/// from before a draw is refused. Proofs from two roots give no row.
#[test]
fn the_shelf_gives_a_root_once() {
    let sizes = reference::circuit::read(CIRCUIT).expect("a legal circuit");
    let before = page(&[2, 4], &[3, 1], 0);
    let mut now = before.clone();
    let first = wivulameno::shelf::draw(&mut now, 0).expect("a root");

    let mut put_back = before.clone();
    let again = wivulameno::shelf::draw(&mut put_back, 1);
    assert_eq!(again, Err(Refusal::of(15)));
    assert_eq!(put_back, before);

    let second = wivulameno::shelf::draw(&mut now, 1).expect("another root");
    assert_ne!(first, second);
    let salt = [9; 32];
    let (one, two) = (proof_of(1000, first, salt), proof_of(813, second, salt));
    let read = side_by_side(sizes, 8, [&one, &two]);
    assert!(read.len() > 5, "{} instances", read.len());
    for [a, b] in read {
        assert!(a != row(1000) && b != row(813));
    }
}
