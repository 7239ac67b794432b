//! Hand-made calls of prepare, run, show and replay: the cases of the scope
//! paper, and each refusal alone and in order. Both implementations must give
//! the answer that stands here.

use reference::circuit::Sizes;
use tests::calls::{compare, used_bits, Answer, Call, Operation, NOT_A_COUNT};
use tests::circuits::{faults_of_five, fields, FIVE, K};
use tests::random::Random;
use tests::works;

const FIVE_SIZES: Sizes = Sizes {
    inputs: 5,
    outputs: 3,
    gates: 5,
    ands: 3,
};

fn check(name: &str, call: &Call, expected: Answer) {
    let answer = compare(&mut Random::new(1), call);
    assert_eq!(answer, expected, "{name}: {}", call.shown());
}

fn call(operation: Operation, circuit: &[u8], n: u32, inputs: &[&[u8]], out: &[usize]) -> Call {
    Call {
        operation,
        circuit: circuit.to_vec(),
        n,
        p: 0,
        cut: 0,
        inputs: inputs.iter().map(|input| input.to_vec()).collect(),
        out_lens: out.to_vec(),
        work_len: works::least(circuit),
    }
}

/// K run by two parties.
fn run_of_k(witness: u8, tapes: [u8; 2], correction: u8) -> Call {
    let inputs: [&[u8]; 3] = [&[witness], &tapes, &[correction]];
    call(Operation::Run, &K, 2, &inputs, &[1, 2, 1])
}

/// K shown, party 0 hidden.
fn show_of_k(witness: u8, tapes: [u8; 2], cut: u32) -> Call {
    let inputs: [&[u8]; 2] = [&[witness], &tapes];
    let call = call(Operation::Show, &K, 2, &inputs, &[2, 1, 1, 1]);
    Call { cut, ..call }
}

#[test]
fn m6() {
    let call = call(Operation::Prepare, &K, 2, &[&[13, 3]], &[1]);
    check("m6", &call, Ok(vec![vec![1]]));
}

#[test]
fn m7() {
    let expected = vec![vec![1], vec![2, 0], vec![1]];
    check("m7", &run_of_k(3, [13, 3], 1), Ok(expected));
}

/// Row 1 is 1: its share of b's mask, of a's mask and the correction.
#[test]
fn m8() {
    let expected = vec![vec![3], vec![3, 1], vec![0]];
    check("m8", &run_of_k(1, [13, 3], 1), Ok(expected));
}

#[test]
fn m9() {
    for (cut, row) in [(0, 0), (1, 3)] {
        let expected = vec![vec![0, 3], vec![1], vec![3], vec![row]];
        check(
            "m8 shown",
            &show_of_k(1, [13, 3], cut),
            Ok(expected.clone()),
        );
        check("m9", &show_of_k(2, [14, 3], cut), Ok(expected));
    }
}

/// The showing of m8 and m9 replays to the rows of m8.
#[test]
fn m9_replayed() {
    let inputs: [&[u8]; 5] = [&[0, 3], &[1], &[3], &[3], &[0]];
    let mut call = call(Operation::Replay, &K, 2, &inputs, &[2]);
    check("y = 0", &call, Ok(vec![vec![3, 1]]));
    call.inputs[4] = vec![1];
    check("y = 1", &call, Err(10));
}

/// A circuit without gates: its only cut shows the output masks.
#[test]
fn no_gates() {
    let file: [u8; 28] = fields([2, 3, 0, 0, 1, 0, 1]);
    let inputs: [&[u8]; 2] = [&[2], &[3, 1]];
    let mut show = call(Operation::Show, &file, 2, &inputs, &[2, 0, 1, 1]);
    let expected = vec![vec![0, 1], vec![], vec![0], vec![7]];
    check("p = 0", &show, Ok(expected));
    show.p = 1;
    let expected = vec![vec![3, 0], vec![], vec![0], vec![2]];
    check("p = 1", &show, Ok(expected));
    show.cut = 1;
    check("no such cut", &show, Err(9));

    let inputs: [&[u8]; 3] = [&[2], &[3, 1], &[]];
    let run = call(Operation::Run, &file, 2, &inputs, &[1, 2, 1]);
    check("run", &run, Ok(vec![vec![0], vec![7, 2], vec![5]]));
    let prepare = call(Operation::Prepare, &file, 2, &[&[3, 1]], &[0]);
    check("prepare", &prepare, Ok(vec![vec![]]));
}

/// Rows of 11 bits in 2 bytes; the last one has 8 bits.
const TAPES: [u8; 8] = [0x35, 0x06, 0xca, 0x01, 0x7e, 0x03, 0x93, 0x00];
const WITNESS: [u8; 1] = [0b10110];

/// The four operations on `FIVE` with four parties, all good. Showing and replay
/// hide party p.
fn good_calls(p: u32) -> [Call; 4] {
    let five = |operation, inputs: &[&[u8]], out: &[usize]| Call {
        p,
        cut: 5,
        ..call(operation, &FIVE, 4, inputs, out)
    };
    let prepare = five(Operation::Prepare, &[&TAPES], &[1]);
    let corrections = prepare.by_reference().expect("no refusal").remove(0);
    let inputs: [&[u8]; 3] = [&WITNESS, &TAPES, &corrections];
    let run = five(Operation::Run, &inputs, &[1, 4, 1]);
    let y = run.by_reference().expect("no refusal").remove(2);
    let show = five(Operation::Show, &[&WITNESS, &TAPES], &[8, 1, 1, 1]);
    let showing = show.by_reference().expect("no refusal");
    let [tapes, corrections, masked_inputs, row] = &showing[..] else {
        panic!("four parts");
    };
    let inputs: [&[u8]; 5] = [tapes, corrections, masked_inputs, row, &y];
    let replay = five(Operation::Replay, &inputs, &[4]);
    [prepare, run, show, replay]
}

/// Lengths that are all wrong, and bits that are all ones.
fn spoil(call: &mut Call) {
    for input in &mut call.inputs {
        input.fill(0xff);
        input.push(0xff);
    }
    call.out_lens.iter_mut().for_each(|len| *len += 1);
}

#[test]
fn good_calls_are_good() {
    for p in 0..4 {
        for call in good_calls(p) {
            let answer = compare(&mut Random::new(1), &call);
            assert!(answer.is_ok(), "{}", call.shown());
        }
    }
}

#[test]
fn refusals_of_the_circuit_come_first() {
    for (refusal, file) in faults_of_five() {
        for mut call in good_calls(1) {
            call.circuit = file.clone();
            check("circuit", &call, Err(refusal));
            (call.n, call.p, call.cut) = (3, 4, 6);
            spoil(&mut call);
            check("circuit, all else too", &call, Err(refusal));
            call.work_len = 0;
            check("circuit, work too", &call, Err(refusal));
        }
    }
}

/// A work buffer that is too short comes before n and all else. `FIVE` has 5 inputs and
/// 5 gates.
#[test]
fn refusals_of_work() {
    for mut call in good_calls(1) {
        assert_eq!(call.work_len, 64 * 10 + 4096);
        for work_len in [0, 1, 4096, 4735] {
            call.work_len = work_len;
            check("work", &call, Err(6));
        }
        for work_len in [4736, 4737, 4800, 9472, 65_536] {
            call.work_len = work_len;
            let answer = compare(&mut Random::new(1), &call);
            assert!(answer.is_ok(), "{}", call.shown());
        }
        (call.n, call.p, call.cut, call.work_len) = (3, 4, 6, 4735);
        spoil(&mut call);
        check("work before n", &call, Err(6));
        call.work_len = 4736;
        check("n", &call, Err(8));
    }
}

#[test]
fn refusals_of_n() {
    for n in NOT_A_COUNT {
        for mut call in good_calls(1) {
            call.n = n;
            check("n", &call, Err(8));
            (call.p, call.cut) = (u32::MAX, 6);
            spoil(&mut call);
            check("n, p, cut and lengths", &call, Err(8));
        }
    }
    for n in [2, 8, 16, 32, 64] {
        for mut call in good_calls(1) {
            call.n = n;
            check("another count", &call, Err(6));
        }
    }
}

#[test]
fn refusals_of_p_and_cut() {
    let [_, _, show, replay] = good_calls(1);
    for p in [4, 5, 15, 16, 256, 256 + 1, 65_536, 1 << 31, u32::MAX] {
        for mut call in [show.clone(), replay.clone()] {
            call.p = p;
            check("p", &call, Err(9));
            spoil(&mut call);
            check("p and lengths", &call, Err(9));
        }
    }
    for cut in [6, 7, 256, 256 + 5, 65_536, 65_536 + 5, 1 << 31, u32::MAX] {
        let mut call = show.clone();
        call.cut = cut;
        check("cut", &call, Err(9));
        spoil(&mut call);
        check("cut and lengths", &call, Err(9));
    }
}

/// Each buffer with another length, the bits of all inputs ones.
#[test]
fn refusals_of_lengths() {
    for call in good_calls(1) {
        let mut ones = call.clone();
        ones.inputs.iter_mut().for_each(|input| input.fill(0xff));
        for (place, input) in ones.inputs.iter().enumerate() {
            let len = input.len();
            for other in [0, len - 1, len + 1, len + 2, 2 * len, len + 256] {
                let mut call = ones.clone();
                call.inputs[place] = vec![0xff; other];
                check("input", &call, Err(6));
            }
        }
        for (place, len) in ones.out_lens.iter().enumerate() {
            for other in [0, len - 1, len + 1, len + 2, 2 * len, len + 256] {
                let mut call = ones.clone();
                call.out_lens[place] = other;
                check("output", &call, Err(6));
            }
        }
        check("7 after 6", &ones, Err(7));
    }
}

/// The bits in use of each input, row by row.
fn rows_in_use(call: &Call) -> Vec<Vec<usize>> {
    let sizes = FIVE_SIZES;
    let tapes = || (0..4).map(|i| used_bits(sizes, 4, i)).collect();
    let (witness, corrections) = (vec![sizes.inputs], vec![sizes.ands]);
    match call.operation {
        Operation::Prepare => vec![tapes()],
        Operation::Run => vec![witness, tapes(), corrections],
        Operation::Show => vec![witness, tapes()],
        Operation::Replay => {
            let row = vec![sizes.ands + sizes.outputs];
            vec![tapes(), corrections, witness, row, vec![sizes.outputs]]
        }
    }
}

/// Flips each bit of each input: 7 if it is out of use or must be zero, and not
/// 7 if it is free.
#[test]
fn refusals_of_bits() {
    for p in 0..4 {
        for call in good_calls(p) {
            for (place, rows) in rows_in_use(&call).iter().enumerate() {
                let row_len = call.inputs[place].len() / rows.len();
                for bit in 0..8 * call.inputs[place].len() {
                    let mut call = call.clone();
                    call.inputs[place][bit / 8] ^= 1 << (bit % 8);
                    let (row, bit) = (bit / (8 * row_len), bit % (8 * row_len));
                    let hidden = call.operation == Operation::Replay
                        && ((place == 0 && row == p as usize) || (place == 1 && p == 3));
                    let answer = compare(&mut Random::new(1), &call);
                    let expected = bit >= rows[row] || hidden;
                    let shown = call.shown();
                    assert_eq!(answer == Err(7), expected, "input {place}, {shown}");
                }
            }
        }
    }
}

/// One bit added to unused tape bits: the last party has no product shares.
#[test]
fn one_bit_in_unused_tape_bits() {
    for (row, bit) in [(0, 11), (1, 15), (2, 11), (3, 8), (3, 10), (3, 15)] {
        for call in good_calls(0) {
            let mut call = call.clone();
            let tapes = call.inputs.iter_mut().find(|input| input.len() == 8);
            tapes.expect("tapes")[2 * row + bit / 8] |= 1 << (bit % 8);
            check("unused tape bit", &call, Err(7));
        }
    }
}

/// Every output but y, and 7 before 10.
#[test]
fn refusals_of_outputs() {
    for p in 0..4 {
        let [.., replay] = good_calls(p);
        for other in 1..8 {
            let mut call = replay.clone();
            call.inputs[4][0] ^= other;
            check("another output", &call, Err(10));
            call.inputs[0][2 * p as usize] = 1;
            check("and a bit in the hidden row", &call, Err(7));
        }
    }
}

/// A replay takes the hidden party's bits as lent: turning the bit of an output
/// turns that output.
#[test]
fn a_replay_takes_the_row_as_lent() {
    for p in 0..4 {
        let [.., replay] = good_calls(p);
        for output in 0..3 {
            let mut call = replay.clone();
            call.inputs[3][0] ^= 1 << (FIVE_SIZES.ands + output);
            check("the old output", &call, Err(10));
            call.inputs[4][0] ^= 1 << output;
            let rows = compare(&mut Random::new(1), &call).expect("the new output");
            assert_eq!(rows[0][p as usize], call.inputs[3][0], "row {p}");
        }
    }
}
