//! The circuit program, as the gate builds it: "ok I O G A" or "no K" for what is on its
//! standard input, with the slot after the K of a chain. Expected answers come from the scope
//! paper and the second implementation.

use std::io::Write;
use std::path::Path;
use std::process::{Command, Stdio};

use reference::circuit::fault_slot;
use tests::circuits::{any_sizes, any_slots, damaged, fields, legal, row_of_gates, with, K};
use tests::outcomes::Outcomes;
use tests::random::Random;

/// The longest input that the program reads.
const LONGEST: usize = 65_536;

/// What the program writes for an input.
fn printed(input: &[u8]) -> String {
    let folder = Path::new(env!("CARGO_MANIFEST_DIR")).join("../../crates/circuit_program");
    let program = folder.join("out/circuit_program");
    let mut child = Command::new(&program)
        .stdin(Stdio::piped())
        .stdout(Stdio::piped())
        .spawn()
        .unwrap_or_else(|error| panic!("{}: {error}; rt ci builds it", program.display()));
    // a program that has read enough may close its end first
    let _ = child.stdin.take().unwrap().write_all(input);
    String::from_utf8(child.wait_with_output().unwrap().stdout).unwrap()
}

/// What it is to write, by the second implementation.
fn expected(input: &[u8]) -> String {
    match reference::circuit::read(input) {
        _ if input.len() > LONGEST => "no 1\n".to_string(),
        Ok(z) => format!("ok {} {} {} {}\n", z.inputs, z.outputs, z.gates, z.ands),
        Err(refusal @ 19..=21) => format!("no {refusal} {}\n", fault_slot(input)),
        Err(refusal) => format!("no {refusal}\n"),
    }
}

/// K with one field changed.
fn changed(place: usize, field: u32) -> Vec<u8> {
    with(&K, &[(place, field)])
}

#[test]
fn the_cases_of_the_paper() {
    assert_eq!(printed(&K), "ok 2 1 1 1\n");
    assert_eq!(printed(&changed(8, 1)), "no 21 1\n");
    assert_eq!(printed(&changed(7, 2)), "no 5\n");
    assert_eq!(printed(&[]), "no 1\n");
    let no_gates: [u8; 20] = fields([1, 1, 0, 0, 0]);
    assert_eq!(printed(&no_gates), "ok 1 1 0 0\n");
}

#[test]
fn chains() {
    assert_eq!(printed(&changed(3, 2)), "no 19 0\n");
    assert_eq!(printed(&changed(8, 2)), "no 19 1\n");
    assert_eq!(printed(&changed(8, 1 << 31)), "no 19 1\n");
    assert_eq!(printed(&changed(3, 0)), "no 20 0\n");
    // Slots of more than one digit, and the last one that the program can meet: 20 bytes
    // and 16 for each gate.
    let mut file = row_of_gates(4094);
    file.gates[99].next = 0;
    assert_eq!(printed(&file.bytes()), "no 20 100\n");
    file.gates[99].next = 4095;
    assert_eq!(printed(&file.bytes()), "no 19 100\n");
    file.gates[99].next = 101;
    file.gates[4093].next = 65_535;
    assert_eq!(printed(&file.bytes()), "no 19 4094\n");
    file.gates[4093].next = 1;
    assert_eq!(printed(&file.bytes()), "no 21 4094\n");
}

/// Other refusals have no slot.
#[test]
fn other_refusals() {
    assert_eq!(printed(&K[..15]), "no 1\n");
    assert_eq!(printed(&changed(0, 0)), "no 2\n");
    assert_eq!(printed(&K[..35]), "no 1\n");
    assert_eq!(printed(&changed(5, 4)), "no 3\n");
    assert_eq!(printed(&changed(5, 256 + 2)), "no 3\n");
    assert_eq!(printed(&changed(4, 3)), "no 5\n");
}

/// K in the old form is no file of this form; converted it is K.
#[test]
fn k_converted() {
    let old = [2, 0, 1, 0, 1, 0, 1, 0, 2, 0, 2, 0, 0, 0, 1, 0, 0, 0];
    assert_eq!(printed(&old), "no 2\n");
    let new = wivulameno::circuit::upgrade_to_vec(&old).expect("a circuit");
    assert_eq!(printed(&new), "ok 2 1 1 1\n");
}

/// A legal file of 65,536 bytes: 16, and 4 for each of 256 outputs, and 16 for each gate.
#[test]
fn the_longest_file_and_one_byte_more() {
    let mut file = row_of_gates(4031);
    file.outputs = vec![0; 256];
    file.counts[1] = 256;
    let mut bytes = file.bytes();
    assert_eq!(bytes.len(), LONGEST);
    assert_eq!(printed(&bytes), "ok 1 256 4031 0\n");
    bytes.push(0);
    assert_eq!(printed(&bytes), "no 1\n");
    bytes.extend([0; 100_000]);
    assert_eq!(printed(&bytes), "no 1\n");
    // Legal files that are longer, and one that would be refused with another number.
    for gates in [4032, 4096, 90_000] {
        file = row_of_gates(gates);
        file.outputs = vec![0; 256];
        file.counts[1] = 256;
        assert_eq!(printed(&file.bytes()), "no 1\n");
    }
    file.gates[7].kind = 9;
    assert_eq!(printed(&file.bytes()), "no 1\n");
}

#[test]
fn legal_and_damaged_files() {
    let mut random = Random::new(41);
    let mut outcomes = Outcomes::default();
    for _ in 0..100 {
        let sizes = any_sizes(&mut random);
        let slots = any_slots(&mut random, sizes[2]);
        let file = legal(&mut random, sizes, &slots);
        let damaged = damaged(&mut random, &file, &slots);
        for bytes in [file.bytes(), damaged] {
            assert_eq!(printed(&bytes), expected(&bytes));
            outcomes.add_answer(&reference::circuit::read(&bytes));
        }
    }
    outcomes.expect(&[0, 1, 2, 3, 5, 19, 20, 21], 2);
}
