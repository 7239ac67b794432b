//! The library and the reference prepare, run, show and replay alike: on random
//! circuits, good and damaged, with the laws between the four.

use reference::bits::{clear_rest, get, put};
use reference::circuit::Sizes;
use tests::calls::{any_bits, compare, damage, Operation, Setting, COUNTS};
use tests::circuits::{any_slots, legal, File, AND, INV, XOR};
use tests::outcomes::Outcomes;
use tests::random::Random;

const SETTINGS: usize = 400;
const WRONG: usize = 300;
const DAMAGED: usize = 12_000;
const SHOWINGS: usize = 1_500;

/// The part of party i in a buffer of rows.
fn row_of(rows: &[u8], row_len: usize, i: u32) -> &[u8] {
    &rows[i as usize * row_len..][..row_len]
}

/// The showing, put together from a run's parts.
fn expected_showing(
    setting: &Setting,
    p: u32,
    corrections: &[u8],
    ran: &[Vec<u8>],
) -> Vec<Vec<u8>> {
    let row_len = setting.sizes.tape_row_len();
    let mut tapes = setting.tapes.clone();
    tapes[p as usize * row_len..][..row_len].fill(0);
    let mut corrections = corrections.to_vec();
    if p == setting.n - 1 {
        corrections.fill(0);
    }
    let row = row_of(&ran[1], setting.sizes.row_len(), p).to_vec();
    vec![tapes, corrections, ran[0].clone(), row]
}

/// The bits of the row that a cut shows.
fn shown_bits(setting: &Setting, cut: u32) -> usize {
    let Sizes { ands, outputs, .. } = setting.sizes;
    if cut == setting.whole() {
        return ands + outputs;
    }
    let passed = setting.slots[..cut as usize].iter();
    let kinds = passed.map(|slot| setting.file.gates[slot - 1].kind);
    kinds.filter(|&kind| kind == AND).count()
}

/// Compares all four, for every p, and the showings at these cuts.
fn compare_all(random: &mut Random, setting: &Setting, cuts: &[u32]) {
    let corrections = compare(random, &setting.prepare())
        .expect("prepared")
        .remove(0);
    let ran = compare(random, &setting.run(&corrections)).expect("run");
    let y = compare_y(setting);
    assert!(ran[2] == y, "y of the run, {:?}", setting.sizes);
    for p in 0..setting.n {
        let whole = expected_showing(setting, p, &corrections, &ran);
        for &cut in cuts.iter().chain([&setting.whole()]) {
            let mut expected = whole.clone();
            clear_rest(&mut expected[3], shown_bits(setting, cut));
            let shown = compare(random, &setting.show(p, cut)).expect("shown");
            assert!(shown == expected, "p {p}, cut {cut}, {:?}", setting.sizes);
        }
        let rows = compare(random, &setting.replay(p, &whole, &y)).expect("replayed");
        assert!(rows[0] == ran[1], "rows, p {p}, {:?}", setting.sizes);
    }
}

/// What both evaluate.
fn compare_y(setting: &Setting) -> Vec<u8> {
    let mut y = vec![0; setting.sizes.y_len()];
    let ours = wivulameno::circuit::evaluate(&setting.circuit, &setting.witness, &mut y);
    assert_eq!(ours, Ok(()));
    assert!(y == setting.y());
    y
}

/// The first cut and any other.
fn some_cuts(random: &mut Random, gates: usize) -> [u32; 3] {
    let any = [0; 2].map(|_| random.from_to(0, gates) as u32);
    [0, any[0], any[1]]
}

#[test]
fn any_settings() {
    let mut random = Random::new(61);
    for _ in 0..SETTINGS {
        let setting = Setting::any(&mut random);
        let cuts = some_cuts(&mut random, setting.sizes.gates);
        compare_all(&mut random, &setting, &cuts);
    }
}

/// Every cut of circuits with few gates.
#[test]
fn every_cut() {
    let mut random = Random::new(62);
    for n in COUNTS.into_iter().cycle().take(40) {
        let sizes = [random.from_to(1, 9), random.from_to(1, 9), 20];
        let setting = Setting::of_sizes(&mut random, sizes, n);
        let cuts: Vec<u32> = (0..=20).collect();
        compare_all(&mut random, &setting, &cuts);
    }
}

/// Makes each gate an AND, which reads wire 0 where it was an INV.
fn all_and(file: &mut File) {
    file.gates.iter_mut().for_each(|gate| gate.kind = AND);
}

fn no_and(file: &mut File) {
    let ands = file.gates.iter_mut().filter(|gate| gate.kind == AND);
    ands.for_each(|gate| gate.kind = XOR);
}

fn outputs_are_inputs(file: &mut File) {
    let inputs = file.counts[0];
    file.outputs.iter_mut().for_each(|wire| *wire %= inputs);
}

fn outputs_are_one_wire(file: &mut File) {
    let last = file.counts[0] + file.counts[2] - 1;
    file.outputs.fill(last);
}

fn as_it_is(_: &mut File) {}

type Change = fn(&mut File);

/// The ends of the limits, and lengths at whole bytes.
#[test]
fn special_shapes() {
    let shapes: [([usize; 3], Change); 18] = [
        ([1, 1, 0], as_it_is),
        ([512, 256, 0], as_it_is),
        ([512, 1, 0], as_it_is),
        ([1, 256, 0], as_it_is),
        ([512, 256, 200], as_it_is),
        ([1, 256, 7], as_it_is),
        ([3, 4, 30], no_and),
        ([512, 256, 30], no_and),
        ([8, 8, 8], all_and),
        ([16, 8, 8], all_and),
        ([7, 7, 9], all_and),
        ([1, 1, 1], all_and),
        ([5, 2, 1], all_and),
        ([20, 9, 24], outputs_are_inputs),
        ([512, 256, 64], outputs_are_inputs),
        ([20, 9, 24], outputs_are_one_wire),
        ([512, 256, 64], outputs_are_one_wire),
        ([300, 130, 700], all_and),
    ];
    let mut random = Random::new(63);
    for (sizes, change) in shapes {
        for n in COUNTS {
            let slots = any_slots(&mut random, sizes[2]);
            let mut file = legal(&mut random, sizes, &slots);
            change(&mut file);
            let setting = Setting::of(&mut random, file, slots, n);
            let cuts = some_cuts(&mut random, sizes[2]);
            compare_all(&mut random, &setting, &cuts);
        }
    }
}

/// The limits but for the gates: 4,096 AND gates, 512 inputs, 256 outputs, 64 parties.
#[test]
fn many_ands() {
    let mut random = Random::new(64);
    let slots = random.order(4096);
    let mut file = legal(&mut random, [512, 256, 4096], &slots);
    all_and(&mut file);
    let setting = Setting::of(&mut random, file, slots, 64);
    assert_eq!(setting.sizes.ands, 4096);
    compare_all(&mut random, &setting, &[4095]);
}

/// The output if the AND gates that have a bit in `turned` give the other value.
fn turned_y(setting: &Setting, turned: &[u8]) -> Vec<u8> {
    let inputs = setting.sizes.inputs;
    let mut values = vec![false; inputs + setting.sizes.gates];
    for (wire, value) in values[..inputs].iter_mut().enumerate() {
        *value = get(&setting.witness, wire);
    }
    let mut ands = 0..;
    for slot in &setting.slots {
        let gate = &setting.file.gates[slot - 1];
        let [a, b] = [gate.a, gate.b].map(|wire| values[wire as usize]);
        values[inputs + slot - 1] = match gate.kind {
            XOR => a ^ b,
            INV => !a,
            _ => (a & b) ^ get(turned, ands.next().expect("a place")),
        };
    }
    let mut y = vec![0; setting.sizes.y_len()];
    for (place, &wire) in setting.file.outputs.iter().enumerate() {
        put(&mut y, place, values[wire as usize]);
    }
    y
}

/// A correction that is not right turns the value of its gate. The run closes
/// with that output, and so does its replay.
#[test]
fn wrong_corrections() {
    let mut random = Random::new(65);
    let mut differing = 0;
    for _ in 0..WRONG {
        let n = random.pick(&COUNTS);
        let sizes = [12, 9, 30].map(|most| random.from_to(1, most));
        let setting = Setting::of_sizes(&mut random, sizes, n);
        let right = setting
            .prepare()
            .by_reference()
            .expect("prepared")
            .remove(0);
        let turned = any_bits(&mut random, setting.sizes.ands);
        let wrong: Vec<u8> = right.iter().zip(&turned).map(|(a, b)| a ^ b).collect();

        let ran = compare(&mut random, &setting.run(&wrong)).expect("run");
        assert_eq!(ran[2], turned_y(&setting, &turned), "{:?}", setting.sizes);
        let honest = setting.y();
        differing += usize::from(ran[2] != honest);
        for p in 0..n {
            let showing = expected_showing(&setting, p, &wrong, &ran);
            let rows = compare(&mut random, &setting.replay(p, &showing, &ran[2]));
            assert_eq!(rows, Ok(vec![ran[1].clone()]), "p {p}");
            let answer = compare(&mut random, &setting.replay(p, &showing, &honest));
            assert_eq!(answer == Err(10), ran[2] != honest, "p {p}");
        }
    }
    assert!(differing > WRONG / 4, "{differing} of {WRONG}");
}

/// Up to three things wrong at once: the first in the paper's order is answered.
#[test]
fn damaged_calls() {
    let mut random = Random::new(66);
    let operations = [
        Operation::Prepare,
        Operation::Run,
        Operation::Show,
        Operation::Replay,
    ];
    let mut outcomes = operations.map(|operation| (operation, Outcomes::default()));
    for _ in 0..DAMAGED {
        let setting = Setting::any(&mut random);
        let mut call = setting.any_call(&mut random);
        for _ in 0..random.pick(&[1, 1, 2, 2, 2, 3]) {
            damage(&mut random, &setting, &mut call);
        }
        let answer = compare(&mut random, &call);
        let of_operation = outcomes.iter_mut().find(|(of, _)| *of == call.operation);
        of_operation.expect("an operation").1.add_answer(&answer);
    }
    let [(_, prepare), (_, run), (_, show), (_, replay)] = outcomes;
    prepare.expect(&[0, 1, 2, 3, 5, 6, 7, 8, 19, 20, 21], 15);
    run.expect(&[0, 1, 2, 3, 5, 6, 7, 8, 19, 20, 21], 15);
    show.expect(&[0, 1, 2, 3, 5, 6, 7, 8, 9, 19, 20, 21], 15);
    replay.expect(&[0, 1, 2, 3, 5, 6, 7, 8, 9, 10, 19, 20, 21], 15);
}

/// A showing of any bits in the form that a replay asks for; no run may have it.
fn any_showing(random: &mut Random, setting: &Setting, p: u32) -> Vec<Vec<u8>> {
    let Sizes {
        inputs,
        outputs,
        ands,
        ..
    } = setting.sizes;
    let ran = [
        any_bits(random, inputs),
        any_bits_of_rows(random, setting.n, ands + outputs),
    ];
    let corrections = any_bits(random, ands);
    expected_showing(setting, p, &corrections, &ran)
}

fn any_bits_of_rows(random: &mut Random, n: u32, bits: usize) -> Vec<u8> {
    let rows: Vec<Vec<u8>> = (0..n).map(|_| any_bits(random, bits)).collect();
    rows.concat()
}

#[test]
fn replays_of_any_bits() {
    let mut random = Random::new(67);
    let mut outcomes = Outcomes::default();
    for _ in 0..SHOWINGS {
        let n = random.pick(&COUNTS);
        let sizes = [
            random.from_to(1, 20),
            random.from_to(1, 3),
            random.from_to(0, 40),
        ];
        let setting = Setting::of_sizes(&mut random, sizes, n);
        let p = random.below(n as usize) as u32;
        let showing = any_showing(&mut random, &setting, p);
        let y = any_bits(&mut random, sizes[1]);
        let answer = compare(&mut random, &setting.replay(p, &showing, &y));
        outcomes.add_answer(&answer);
    }
    outcomes.expect(&[0, 10], SHOWINGS / 6);
}
