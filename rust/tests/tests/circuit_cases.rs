//! Hand-made circuit files: the cases of the scope paper, and each refusal.
//! Both implementations must give the answer that stands here.

use tests::circuits::{fields, row_of_gates, with, File};
use tests::guarded::Guarded;
use tests::random::Random;

/// One AND of two inputs.
const K: [u8; 36] = [
    2, 0, 0, 0, 1, 0, 0, 0, 1, 0, 0, 0, 1, 0, 0, 0, // I, O, G, head
    2, 0, 0, 0, // the output
    2, 0, 0, 0, 0, 0, 0, 0, 1, 0, 0, 0, 0, 0, 0, 0, // slot 1
];

/// Three inputs, two gates: slot 2 is wire 4 = x XOR y, slot 1 is wire 3 = z AND
/// wire 4. The outputs are wires 3, 2 and 3.
const TWO: [u8; 60] = fields([
    3, 3, 2, 2, // head
    3, 2, 3, // outputs
    2, 2, 4, 0, // slot 1
    1, 0, 1, 1, // slot 2
]);

/// The first field of slot 1 and of slot 2 in `TWO`, which is the kind; then there are
/// a, b and the link.
const SLOT_1: usize = 7;
const SLOT_2: usize = 11;
const A: usize = 1;
const B: usize = 2;
const LINK: usize = 3;

fn check_read(name: &str, file: &[u8], expected: Result<[u32; 4], u32>) {
    let second = reference::circuit::read(file).map(|sizes| {
        [sizes.inputs, sizes.outputs, sizes.gates, sizes.ands].map(|size| size as u32)
    });
    assert_eq!(second, expected, "reference: {name}");

    let ours = wivulameno::circuit::read(file).map_err(|refusal| refusal.number());
    assert_eq!(ours, expected, "library: {name}");

    let mut sizes = [7, 8, 9, 10];
    let _ = wivulameno::circuit::read_into(file, &mut sizes);
    assert_eq!(sizes, expected.unwrap_or([7, 8, 9, 10]), "sizes: {name}");

    if !matches!(expected, Err(19..=21)) {
        assert_eq!(fault_slots(file), [0, 0], "slot: {name}");
    }
}

/// The slot of a chain's fault, by both.
fn fault_slots(file: &[u8]) -> [usize; 2] {
    let ours = wivulameno::circuit::fault_slot(file);
    [reference::circuit::fault_slot(file), ours as usize]
}

/// A chain that goes wrong, with its number and its slot.
fn check_fault(name: &str, file: &[u8], number: u32, slot: usize) {
    check_read(name, file, Err(number));
    assert_eq!(fault_slots(file), [slot, slot], "slot: {name}");
}

/// What an evaluation leaves in `y`, which holds 0xa5 before.
type Evaluated = Result<Vec<u8>, u32>;

fn check_evaluate(name: &str, file: &[u8], witness: &[u8], y_len: usize, expected: Evaluated) {
    let mut y = vec![0xa5; y_len];
    let second = reference::circuit::evaluate(file, witness, &mut y);
    assert_eq!(second.map(|()| y), expected, "reference: {name}");

    let random = &mut Random::new(1);
    let mut y = Guarded::holding(random, &vec![0xa5; y_len]);
    let ours = wivulameno::circuit::evaluate(file, witness, y.lent());
    let ours = ours.map_err(|refusal| refusal.number());
    assert_eq!(ours.map(|()| y.get().to_vec()), expected, "library: {name}");
    assert!(y.outside_unchanged(), "outside: {name}");
    assert!(expected.is_ok() || y.unchanged(), "y: {name}");
}

#[test]
fn marked_cases() {
    check_read("m1", &K, Ok([2, 1, 1, 1]));
    check_fault("m2", &with(&K, &[(8, 1)]), 21, 1);
    check_read("m3", &with(&K, &[(7, 2)]), Err(5));
    check_read("m4", &[], Err(1));
    let no_gates: [u8; 20] = fields([1, 1, 0, 0, 0]);
    check_read("m5", &no_gates, Ok([1, 1, 0, 0]));
}

#[test]
fn limits_of_gates() {
    for gates in [4096, 4097, 65_535, 65_536, 65_537, 90_000, 100_000] {
        let file = row_of_gates(gates).bytes();
        check_read("gates", &file, Ok([1, 1, gates as u32, 0]));
    }
    let file = row_of_gates(100_001).bytes();
    check_read("100,001 gates", &file, Err(2));
    for gates in [100_001, 1 << 20, 1 << 28, (1 << 28) + 1, 1 << 31, u32::MAX] {
        check_read("too many gates", &with(&K, &[(2, gates)]), Err(2));
    }
}

/// A file without gates whose outputs are input 0.
fn plain(inputs: u32, outputs: u32) -> Vec<u8> {
    let file = File {
        counts: [inputs, outputs, 0],
        head: 0,
        outputs: vec![0; outputs as usize],
        gates: vec![],
    };
    file.bytes()
}

#[test]
fn limits_of_inputs_and_outputs() {
    check_read("I = 512", &plain(512, 1), Ok([512, 1, 0, 0]));
    check_read("O = 256", &plain(1, 256), Ok([1, 256, 0, 0]));
    for inputs in [0, 513, 1024, 65_535, 65_536 + 1, 1 << 31, u32::MAX] {
        check_read("I beyond limits", &plain(inputs, 1), Err(2));
    }
    for outputs in [0, 257, 512, 65_535, 65_536 + 1] {
        check_read("O beyond limits", &plain(1, outputs), Err(2));
    }
    for outputs in [1 << 30, (1 << 30) + 1, 1 << 31, u32::MAX] {
        check_read("O beyond limits", &with(&K, &[(1, outputs)]), Err(2));
    }
}

/// The longest file: 1,601,040 bytes.
#[test]
fn all_limits_at_once() {
    let mut file = row_of_gates(100_000);
    file.counts = [512, 256, 100_000];
    file.outputs = vec![100_511; 256];
    let bytes = file.bytes();
    assert_eq!(bytes.len(), 1_601_040);
    check_read("all limits", &bytes, Ok([512, 256, 100_000, 0]));
    let y = Ok(vec![0xff; 32]);
    check_evaluate("all limits", &bytes, &[0; 64], 32, y);
    file.outputs[255] = 100_512;
    check_read("a wire too high", &file.bytes(), Err(5));
}

#[test]
fn lengths() {
    for len in 0..16 {
        check_read("under 16 bytes", &TWO[..len], Err(1));
    }
    for len in 16..60 {
        check_read("cut", &TWO[..len], Err(1));
    }
    check_read("a byte more", &[&TWO[..], &[0]].concat(), Err(1));
    check_read("a record more", &[&TWO[..], &[0; 16]].concat(), Err(1));
    check_read("one output said", &with(&TWO, &[(1, 2)]), Err(1));
    check_read("one gate said", &with(&TWO, &[(2, 1)]), Err(1));
    let long = [&TWO[..], &[0; 65_536]].concat();
    check_read("65,536 bytes more", &long, Err(1));
}

/// The kind is a whole field.
#[test]
fn records() {
    let kinds = [0, 4, 5, 0x81, 0x82, 0x83, 0xff];
    for kind in kinds.into_iter().chain([1 << 31, u32::MAX]) {
        check_read("kind", &with(&TWO, &[(SLOT_2, kind)]), Err(3));
    }
    for kind in 1..=3 {
        for bit in 2..32 {
            let kind = kind | 1 << bit;
            check_read("kind", &with(&TWO, &[(SLOT_1, kind)]), Err(3));
        }
    }
    let inv = with(&TWO, &[(SLOT_1, 3), (SLOT_1 + B, 0)]);
    check_read("INV", &inv, Ok([3, 3, 2, 0]));
    for b in [1, 256, 65_536, 1 << 24, 1 << 31] {
        check_read("INV, b not 0", &with(&inv, &[(SLOT_1 + B, b)]), Err(3));
    }
}

#[test]
fn chains() {
    let link = |head, first, second| {
        let changes = [(3, head), (SLOT_1 + LINK, first), (SLOT_2 + LINK, second)];
        with(&TWO, &changes)
    };
    check_read("2, 1", &link(2, 0, 1), Ok([3, 3, 2, 1]));
    check_fault("no head", &link(0, 0, 1), 20, 0);
    check_fault("ends early", &link(1, 0, 1), 20, 1);
    check_fault("ends early, rest a ring", &link(1, 0, 2), 20, 1);
    check_fault("does not end", &link(2, 2, 1), 21, 1);
    check_fault("last follows itself", &link(2, 1, 1), 21, 1);
    check_fault("first follows itself", &link(2, 0, 2), 21, 2);
    check_fault("head past G", &link(3, 0, 1), 19, 0);
    check_fault("link past G", &link(2, 0, 3), 19, 2);
    check_fault("end past G", &link(2, 3, 1), 19, 1);
    for high in [1 << 8, 1 << 16, 1 << 24, 1 << 31] {
        check_fault("head past G", &link(2 + high, 0, 1), 19, 0);
        check_fault("link past G", &link(2, 0, 1 + high), 19, 2);
        check_fault("end past G", &link(2, high, 1), 19, 1);
        let no_gates: [u8; 20] = fields([1, 1, 0, high, 0]);
        check_fault("no gates and a head", &no_gates, 19, 0);
    }
    let no_gates: [u8; 20] = fields([1, 1, 0, 1, 0]);
    check_fault("no gates and head 1", &no_gates, 19, 0);
}

#[test]
fn wires() {
    let in_slot_order = [(3, 1), (SLOT_1 + LINK, 2), (SLOT_2 + LINK, 0)];
    check_read("in slot order", &with(&TWO, &in_slot_order), Err(5));
    check_read("a reads itself", &with(&TWO, &[(SLOT_2 + A, 4)]), Err(5));
    check_read("b reads itself", &with(&TWO, &[(SLOT_2 + B, 4)]), Err(5));
    check_read("a reads later", &with(&TWO, &[(SLOT_2 + A, 3)]), Err(5));
    check_read("b reads later", &with(&TWO, &[(SLOT_2 + B, 3)]), Err(5));
    check_read("a is no wire", &with(&TWO, &[(SLOT_1 + A, 5)]), Err(5));
    check_read("b is no wire", &with(&TWO, &[(SLOT_1 + B, 5)]), Err(5));
    let inv = with(&TWO, &[(SLOT_1, 3), (SLOT_1 + A, 3), (SLOT_1 + B, 0)]);
    check_read("INV reads itself", &inv, Err(5));
    let last = with(&TWO, &[(6, 4)]);
    check_read("output is the last wire", &last, Ok([3, 3, 2, 1]));
    check_read("output is no wire", &with(&TWO, &[(6, 5)]), Err(5));
    for high in [1 << 8, 1 << 16, 1 << 24, 1 << 31] {
        check_read("output too high", &with(&TWO, &[(6, 3 + high)]), Err(5));
        check_read("a too high", &with(&TWO, &[(SLOT_1 + A, 2 + high)]), Err(5));
        check_read("b too high", &with(&TWO, &[(SLOT_1 + B, 4 + high)]), Err(5));
    }
}

/// With two faults, the one that is first in the paper's order is answered,
/// wherever in the file it is.
#[test]
fn read_in_order() {
    check_read("1 before 2", &[0; 15], Err(1));
    check_read("2 before 1", &[0; 16], Err(2));
    let long = [&with(&TWO, &[(SLOT_2, 9)])[..], &[0]].concat();
    check_read("1 before 3", &long, Err(1));
    let file = with(&TWO, &[(3, 0), (SLOT_1, 9)]);
    check_read("3 on no chain", &file, Err(3));
    for (head, first, number) in [(3, 0, 19), (1, 0, 20), (2, 2, 21)] {
        let chain = [(3, head), (SLOT_1 + LINK, first)];
        let file = with(&with(&TWO, &chain), &[(SLOT_2 + A, 9)]);
        check_read("the chain before 5", &file, Err(number));
        let file = with(&with(&TWO, &chain), &[(SLOT_2, 9)]);
        check_read("3 before the chain", &file, Err(3));
    }
    let file = with(&TWO, &[(SLOT_2 + A, 9), (SLOT_1, 9)]);
    check_read("3 before 5", &file, Err(3));
    let file = with(&TWO, &[(4, 9), (SLOT_2 + LINK, 3)]);
    check_fault("the chain before an output's 5", &file, 19, 2);
}

/// A file of the old form is no file of this one.
#[test]
fn old_files() {
    check_read("no gates", &row_of_gates(0).old_bytes(), Err(1));
    for gates in [1, 2, 90, 4096] {
        check_read("old", &row_of_gates(gates).old_bytes(), Err(2));
    }
}

#[test]
fn evaluate_known_values() {
    for (witness, y) in [(0, 0), (1, 0), (2, 0), (3, 1)] {
        check_evaluate("K", &K, &[witness], 1, Ok(vec![y]));
    }
    let xor = with(&K, &[(5, 1)]);
    for (witness, y) in [(0, 0), (1, 1), (2, 1), (3, 0)] {
        check_evaluate("XOR", &xor, &[witness], 1, Ok(vec![y]));
    }
    let inv = with(&K, &[(5, 3), (6, 1), (7, 0)]);
    for (witness, y) in [(0, 1), (1, 1), (2, 0), (3, 0)] {
        check_evaluate("INV", &inv, &[witness], 1, Ok(vec![y]));
    }
    for (witness, y) in [(0, 0), (1, 0), (4, 2), (5, 7), (6, 7), (7, 2)] {
        check_evaluate("TWO", &TWO, &[witness], 1, Ok(vec![y]));
    }
}

/// Nine inputs to nine outputs, in another order: bits are packed lowest first.
#[test]
fn evaluate_packs_bits() {
    let mut file = plain(9, 9);
    for place in 0..9 {
        file = with(&file, &[(4 + place, 8 - place as u32)]);
    }
    let y = Ok(vec![0b0010_0001, 0b1]);
    check_evaluate("turned", &file, &[0b0000_1001, 0b1], 2, y);
}

#[test]
fn evaluate_refusals() {
    for (expected, file) in [
        (1, TWO[..15].to_vec()),
        (2, with(&TWO, &[(0, 0)])),
        (1, TWO[..59].to_vec()),
        (3, with(&TWO, &[(SLOT_1, 4)])),
        (19, with(&TWO, &[(3, 3)])),
        (20, with(&TWO, &[(3, 0)])),
        (21, with(&TWO, &[(SLOT_1 + LINK, 1)])),
        (5, with(&TWO, &[(SLOT_1 + A, 5)])),
    ] {
        check_evaluate("circuit", &file, &[0], 1, Err(expected));
        check_evaluate("circuit before 6", &file, &[8, 0], 2, Err(expected));
    }
    check_evaluate("no witness", &TWO, &[], 1, Err(6));
    check_evaluate("long witness", &TWO, &[0, 0], 1, Err(6));
    check_evaluate("no y", &TWO, &[0], 0, Err(6));
    check_evaluate("long y", &TWO, &[0], 2, Err(6));
    check_evaluate("6 before 7", &TWO, &[8], 2, Err(6));
    check_evaluate("lowest unused bit", &TWO, &[8], 1, Err(7));
    check_evaluate("highest unused bit", &TWO, &[0x80], 1, Err(7));
    let whole = plain(8, 1);
    check_evaluate("no unused bit", &whole, &[0xff], 1, Ok(vec![1]));
}
