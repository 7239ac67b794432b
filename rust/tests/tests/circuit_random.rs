//! Random circuit files, legal and damaged: answers and lent bytes.

use reference::bits::{clear_rest, oct};
use reference::circuit;
use tests::circuits::{any_sizes, any_slots, damaged, legal, AND};
use tests::guarded::Guarded;
use tests::outcomes::Outcomes;
use tests::random::Random;

const LEGAL: usize = 8_000;
const DAMAGED: usize = 16_000;

/// The head of a file, for the message of a failure.
fn shown(file: &[u8]) -> String {
    let head = &file[..file.len().min(120)];
    format!("file of {} bytes: {head:02x?}", file.len())
}

/// Reads the file by both; gives the reference's answer.
fn compare_read(random: &mut Random, file: &[u8]) -> Result<circuit::Sizes, u32> {
    let lent = Guarded::holding(random, file);
    let mut words: [u32; 12] = std::array::from_fn(|_| random.word() as u32);
    let mut expected = words;
    let second = circuit::read(file);
    if let Ok(sizes) = second {
        let sizes = [sizes.inputs, sizes.outputs, sizes.gates, sizes.ands];
        expected[4..8].copy_from_slice(&sizes.map(|size| size as u32));
    }

    let middle = (&mut words[4..8]).try_into().expect("4 words");
    let ours = wivulameno::circuit::read_into(lent.get(), middle);
    let ours = ours.map_err(|refusal| refusal.number());
    assert_eq!(ours, second.map(|_| ()), "{}", shown(file));
    assert_eq!(words, expected, "sizes, {}", shown(file));
    let slot = wivulameno::circuit::fault_slot(lent.get()) as usize;
    assert_eq!(slot, circuit::fault_slot(file), "slot, {}", shown(file));
    let of_chain = matches!(second, Err(19..=21));
    assert!(of_chain || slot == 0, "slot {slot}, {}", shown(file));
    assert!(lent.unchanged(), "circuit, {}", shown(file));
    second
}

/// Evaluates by both; gives the reference's answer.
fn compare_evaluate(
    random: &mut Random,
    file: &[u8],
    witness: &[u8],
    y_len: usize,
) -> Result<(), u32> {
    let file = Guarded::holding(random, file);
    let witness = Guarded::holding(random, witness);
    let mut y = Guarded::new(random, 5, y_len);
    let mut expected = y.get().to_vec();
    let second = circuit::evaluate(file.get(), witness.get(), &mut expected);

    let ours = wivulameno::circuit::evaluate(file.get(), witness.get(), y.lent());
    let shown = shown(file.get());
    assert_eq!(ours.map_err(|refusal| refusal.number()), second, "{shown}");
    assert!(y.get() == expected, "y, {shown}");
    assert!(y.outside_unchanged(), "outside, {shown}");
    assert!(second.is_ok() || y.unchanged(), "y of a refusal, {shown}");
    assert!(file.unchanged() && witness.unchanged(), "inputs, {shown}");
    second
}

/// A witness and a length for y: mostly good ones, else a wrong length or an
/// unused bit.
fn any_witness(random: &mut Random, sizes: [usize; 3]) -> (Vec<u8>, usize) {
    let (mut len, mut y_len) = (oct(sizes[0]), oct(sizes[1]));
    let fault = random.below(16);
    match fault {
        0 => len = random.pick(&[0, len - 1, len + 1, len + 256]),
        1 => y_len = random.pick(&[0, y_len - 1, y_len + 1, y_len + 256]),
        _ => {}
    }
    let mut witness = random.bytes(len);
    if fault != 2 {
        clear_rest(&mut witness, sizes[0]);
    }
    (witness, y_len)
}

#[test]
fn legal_files() {
    let mut random = Random::new(21);
    let mut outcomes = Outcomes::default();
    let [mut without_gates, mut out_of_order, mut repeated, mut inputs] = [0; 4];
    for _ in 0..LEGAL {
        let sizes = any_sizes(&mut random);
        let slots = any_slots(&mut random, sizes[2]);
        let file = legal(&mut random, sizes, &slots);
        let bytes = file.bytes();
        let read = compare_read(&mut random, &bytes).expect("a legal file");
        assert_eq!([read.inputs, read.outputs, read.gates], sizes);
        let ands = file.gates.iter().filter(|gate| gate.kind == AND);
        assert_eq!(read.ands, ands.count());

        let (witness, y_len) = any_witness(&mut random, sizes);
        let evaluated = compare_evaluate(&mut random, &bytes, &witness, y_len);
        outcomes.add_answer(&evaluated);

        let first = file.outputs[0];
        without_gates += usize::from(slots.is_empty());
        out_of_order += usize::from(!slots.is_sorted());
        repeated += usize::from(file.outputs[1..].contains(&first));
        inputs += usize::from((first as usize) < sizes[0]);
    }
    outcomes.expect(&[0, 6, 7], 200);
    let least = [without_gates, out_of_order, repeated, inputs];
    assert!(least.iter().all(|&times| times >= 300), "{least:?}");
}

#[test]
fn damaged_files() {
    let mut random = Random::new(22);
    let mut read = Outcomes::default();
    let mut evaluated = Outcomes::default();
    for _ in 0..DAMAGED {
        let sizes = any_sizes(&mut random);
        let slots = any_slots(&mut random, sizes[2]);
        let file = legal(&mut random, sizes, &slots);
        let bytes = damaged(&mut random, &file, &slots);
        read.add_answer(&compare_read(&mut random, &bytes));

        let (witness, y_len) = any_witness(&mut random, sizes);
        let answer = compare_evaluate(&mut random, &bytes, &witness, y_len);
        evaluated.add_answer(&answer);
    }
    read.expect(&[0, 1, 2, 3, 5, 19, 20, 21], 300);
    evaluated.expect(&[0, 1, 2, 3, 5, 6, 7, 19, 20, 21], 20);
}

/// Bytes without any form, and heads alone.
#[test]
fn random_bytes() {
    let mut random = Random::new(23);
    let mut outcomes = Outcomes::default();
    for _ in 0..2_000 {
        let len = random.below(128);
        let mut bytes = random.bytes(len);
        // Small numbers, so that some heads are within the limits.
        for (place, byte) in bytes.iter_mut().enumerate() {
            *byte = if place % 4 == 0 { *byte % 4 } else { 0 };
        }
        outcomes.add_answer(&compare_read(&mut random, &bytes));
        outcomes.add_answer(&compare_evaluate(&mut random, &bytes, &[0], 1));
    }
    outcomes.expect_some(&[1, 2], 100);
}
