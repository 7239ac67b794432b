//! Circuit files of the old form: converted they are the same circuit, and a damaged one
//! is refused with the number and the slot of the old reading.

use tests::calls::{any_bits, Setting, COUNTS};
use tests::circuits::{any_sizes, any_slots, damaged, fields, legal, row_of_gates, File, FIVE, K};
use tests::old::{compare, damaged_old};
use tests::outcomes::Outcomes;
use tests::proofs::{compare_prove, Prove};
use tests::random::Random;
use wivulameno::circuit::upgrade_to_vec;

/// K and `FIVE` in the old form.
const OLD_K: [u8; 18] = [2, 0, 1, 0, 1, 0, 1, 0, 2, 0, 2, 0, 0, 0, 1, 0, 0, 0];
const OLD_FIVE: [u8; 54] = [
    5, 0, 3, 0, 5, 0, 3, 0, // head
    9, 0, 4, 0, 6, 0, // outputs
    3, 0, 7, 0, 0, 0, 4, 0, // slot 1
    1, 0, 8, 0, 3, 0, 5, 0, // slot 2
    2, 0, 0, 0, 1, 0, 1, 0, // slot 3
    2, 0, 5, 0, 2, 0, 2, 0, // slot 4
    2, 0, 6, 0, 4, 0, 0, 0, // slot 5
];

/// The converted file by both, with more than enough room.
fn converted(random: &mut Random, old: &[u8]) -> Result<Vec<u8>, u32> {
    let (mut file, len) = compare(random, old, 2 * old.len() + 7)?;
    file.truncate(len);
    assert_eq!(upgrade_to_vec(old), Ok(file.clone()));
    Ok(file)
}

#[test]
fn by_hand() {
    let mut random = Random::new(1);
    assert_eq!(converted(&mut random, &OLD_K), Ok(K.to_vec()));
    assert_eq!(converted(&mut random, &OLD_FIVE), Ok(FIVE.to_vec()));
    let no_gates = [1, 0, 1, 0, 0, 0, 0, 0, 0, 0];
    let file: [u8; 20] = fields([1, 1, 0, 0, 0]);
    assert_eq!(converted(&mut random, &no_gates), Ok(file.to_vec()));
}

/// 6 comes last, for every length under the file's; beyond it, bytes stay.
#[test]
fn the_output_comes_last() {
    let mut random = Random::new(2);
    for len in 0..FIVE.len() {
        assert_eq!(compare(&mut random, &OLD_FIVE, len), Err(6), "{len}");
    }
    for len in [108, 109, 200, 4096] {
        let (out, written) = compare(&mut random, &OLD_FIVE, len).expect("room");
        assert_eq!((written, &out[..108]), (108, &FIVE[..]));
    }
    for (number, slot, old) in damaged_by_hand() {
        assert_eq!(compare(&mut random, &old, 0), Err(number), "slot {slot}");
    }
}

/// `OLD_FIVE` with another byte at `place`.
fn with(place: usize, byte: u8) -> Vec<u8> {
    let mut old = OLD_FIVE.to_vec();
    old[place] = byte;
    old
}

/// A number, a slot, and a file that the old reading refuses with them.
fn damaged_by_hand() -> Vec<(u32, u32, Vec<u8>)> {
    vec![
        (1, 0, vec![]),
        (1, 0, OLD_FIVE[..7].to_vec()),
        (1, 0, OLD_FIVE[..53].to_vec()),
        (1, 0, [&OLD_FIVE[..], &[0]].concat()),
        (2, 0, with(0, 0)),
        (2, 0, with(1, 3)),
        (2, 0, with(2, 0)),
        (2, 0, with(3, 2)),
        (2, 0, with(5, 17)),
        (3, 0, with(14, 0)),
        (3, 0, with(14, 4)),
        (3, 0, with(15, 1)),
        (3, 0, with(23, 128)),
        (3, 0, with(18, 1)),
        (19, 0, with(6, 6)),
        (19, 0, with(7, 1)),
        (19, 3, with(36, 6)),
        (19, 5, with(53, 1)),
        (20, 0, with(6, 0)),
        (20, 3, with(36, 0)),
        (21, 5, with(52, 3)),
        (5, 0, with(16, 9)),
        (5, 0, with(12, 10)),
    ]
}

#[test]
fn damaged_files_by_hand() {
    let mut random = Random::new(3);
    for (number, slot, old) in damaged_by_hand() {
        assert_eq!(compare(&mut random, &old, 4096), Err(number), "{old:?}");
        assert_eq!(wivulameno::circuit::upgrade_slot(&old), slot, "{old:?}");
    }
}

/// 4,096 gates were the most.
#[test]
fn limits() {
    let mut random = Random::new(4);
    let most = row_of_gates(4096);
    assert_eq!(converted(&mut random, &most.old_bytes()), Ok(most.bytes()));
    let more = row_of_gates(4097).old_bytes();
    assert_eq!(compare(&mut random, &more, 2 * more.len()), Err(2));
    let mut all = row_of_gates(4096);
    all.counts = [512, 256, 4096];
    all.outputs = vec![4607; 256];
    assert_eq!(converted(&mut random, &all.old_bytes()), Ok(all.bytes()));
    assert_eq!(all.old_bytes().len(), 33_288);
}

/// Files that the program under test did not make: the builder writes both forms.
#[test]
fn every_legal_file() {
    let mut random = Random::new(5);
    for _ in 0..3_000 {
        let sizes = any_sizes(&mut random);
        let slots = any_slots(&mut random, sizes[2]);
        let file = legal(&mut random, sizes, &slots);
        let new = converted(&mut random, &file.old_bytes()).expect("a legal file");
        assert!(new == file.bytes(), "{sizes:?}");
    }
}

/// A damage of the fields that both forms can hold is refused with the same number and
/// the same slot by the old reading and by the new one.
#[test]
fn damaged_fields() {
    let mut random = Random::new(6);
    let mut outcomes = Outcomes::default();
    for _ in 0..6_000 {
        let sizes = any_sizes(&mut random);
        let slots = any_slots(&mut random, sizes[2]);
        let file = legal(&mut random, sizes, &slots);
        let new = damaged(&mut random, &file, &slots);
        let Some(old) = narrowed(&new) else {
            continue;
        };
        let answer = compare(&mut random, &old, 2 * old.len()).map(|(file, _)| file);
        let read = reference::circuit::read(&new);
        assert_eq!(answer.clone().map(|_| ()), read.map(|_| ()));
        if let Ok(file) = &answer {
            assert!(*file == new);
        }
        let slot = wivulameno::circuit::upgrade_slot(&old) as usize;
        assert_eq!(slot, reference::circuit::fault_slot(&new));
        outcomes.add_answer(&answer);
    }
    outcomes.expect(&[0, 1, 2, 3, 5, 19, 20, 21], 20);
}

/// The file in the old form, if each field has 16 bits, there are whole fields, and G is
/// one that the old form has: 1 and 2 are the same then too.
fn narrowed(new: &[u8]) -> Option<Vec<u8>> {
    let mut old = vec![];
    for field in new.chunks(4) {
        let field = u32::from_le_bytes(field.try_into().ok()?);
        old.extend(u16::try_from(field).ok()?.to_le_bytes());
    }
    let gates = old
        .get(4..6)
        .map_or(0, |gates| u16::from_le_bytes([gates[0], gates[1]]));
    (gates <= 4096).then_some(old)
}

#[test]
fn damaged_files() {
    let mut random = Random::new(7);
    let mut outcomes = Outcomes::default();
    for _ in 0..12_000 {
        let sizes = any_sizes(&mut random);
        let slots = any_slots(&mut random, sizes[2]);
        let mut old = legal(&mut random, sizes, &slots).old_bytes();
        for _ in 0..random.from_to(1, 2) {
            if old.len() >= 8 {
                old = damaged_old(&mut random, old);
            }
        }
        outcomes.add_answer(&compare(&mut random, &old, 2 * old.len() + 9));
    }
    outcomes.expect(&[0, 1, 2, 3, 5, 19, 20, 21], 50);
}

/// Bytes without any form.
#[test]
fn any_bytes() {
    let mut random = Random::new(8);
    let mut outcomes = Outcomes::default();
    for _ in 0..4_000 {
        let len = random.below(64);
        let mut bytes = random.bytes(len);
        // Small numbers, so that some heads are within the limits.
        for (place, byte) in bytes.iter_mut().enumerate() {
            *byte = if place % 2 == 0 { *byte % 4 } else { 0 };
        }
        outcomes.add_answer(&compare(&mut random, &bytes, 200));
    }
    outcomes.expect_some(&[1, 2], 100);
}

/// What a file of the old form means: its outputs, from its own bytes.
fn old_outputs(old: &[u8], witness: &[u8]) -> Vec<u8> {
    let get = |place: usize| usize::from(old[place]) + 256 * usize::from(old[place + 1]);
    let [inputs, outputs, mut slot] = [get(0), get(2), get(6)];
    let bit = |place: usize| witness[place / 8] >> (place % 8) & 1;
    let mut values: Vec<u8> = (0..inputs).map(bit).collect();
    values.resize(inputs + get(4), 2);
    while slot != 0 {
        let place = 8 + 2 * outputs + 8 * (slot - 1);
        let [a, b] = [get(place + 2), get(place + 4)].map(|wire| values[wire]);
        values[inputs + slot - 1] = match old[place] {
            1 => a ^ b,
            2 => a & b,
            _ => 1 - a,
        };
        slot = get(place + 6);
    }
    let mut y = vec![0; outputs.div_ceil(8)];
    for place in 0..outputs {
        y[place / 8] |= values[get(8 + 2 * place)] << (place % 8);
    }
    y
}

/// The converted file evaluates as the old one does.
#[test]
fn the_meaning_stays() {
    let mut random = Random::new(9);
    for _ in 0..2_000 {
        let sizes = any_sizes(&mut random);
        let slots = any_slots(&mut random, sizes[2]);
        let old = legal(&mut random, sizes, &slots).old_bytes();
        let new = converted(&mut random, &old).expect("a legal file");
        let witness = any_bits(&mut random, sizes[0]);
        let mut y = vec![0; sizes[1].div_ceil(8)];
        let answer = wivulameno::circuit::evaluate(&new, &witness, &mut y);
        assert_eq!((answer, y), (Ok(()), old_outputs(&old, &witness)));
    }
}

/// A converted circuit is proved and checked.
#[test]
fn proofs_of_converted_circuits() {
    let mut random = Random::new(10);
    for n in COUNTS {
        let slots = any_slots(&mut random, 30);
        let file: File = legal(&mut random, [9, 3, 30], &slots);
        let setting = Setting::of(&mut random, file, slots, n);
        let mut call = Prove::of(&mut random, &setting, [5, 2], 9);
        call.circuit = converted(&mut random, &setting.file.old_bytes()).expect("legal");
        let proof = compare_prove(&mut random, &call).expect("proved");
        assert_eq!(
            tests::proofs::compare_check(&mut random, &call.check(&proof)),
            Ok(())
        );
    }
}
